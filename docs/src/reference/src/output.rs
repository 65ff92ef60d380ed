//! Calls that write into a buffer: "A refused write touches no byte of the buffer; an accepted one changes only the bytes it writes.
//! It returns how many it wrote, 0 when refused."

/// What the test programs' buffers hold before a call.
const UNTOUCHED: u8 = 165;

/// How many bytes the longest of them has.
pub const ROOM: usize = 4096;

/// The buffer for a call that asks for so many bytes, before it is called.
pub fn untouched(size: u16) -> Vec<u8> {
    vec![UNTOUCHED; ROOM.min(size as usize)]
}

/// Writes these bytes, or answers 11.
pub fn write(bytes: &[u8], out: &mut [u8]) -> Result<usize, u8> {
    if out.len() < bytes.len() {
        return Err(11);
    }
    out[..bytes.len()].copy_from_slice(bytes);
    Ok(bytes.len())
}

/// A call on a buffer of that size: its refusal, how many bytes it wrote, and the buffer.
pub struct Outcome {
    pub refusal: u8,
    pub count: usize,
    pub buffer: Vec<u8>,
}

impl Outcome {
    pub fn of(size: usize, call: impl Fn(&mut [u8]) -> Result<usize, u8>) -> Outcome {
        let mut buffer = vec![UNTOUCHED; size];
        let (refusal, count) = match call(&mut buffer) {
            Ok(count) => (0, count),
            Err(refusal) => (refusal, 0),
        };
        Outcome { refusal, count, buffer }
    }

    pub fn words(&self) -> String {
        let kept = self.buffer[self.count..].iter().all(|b| *b == UNTOUCHED);
        format!("{} {} {}", self.refusal, self.count, if kept { "kept" } else { "touched" })
    }
}
