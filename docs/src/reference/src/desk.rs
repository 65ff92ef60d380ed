//! "The polling desk" of document 02: the rules, on a desk of any numbers. Where a comment has words in quotation marks, they are the
//! page's.

/// "Cabinets 0-31".
pub const CABINETS: u8 = 32;
/// "Polled three times running".
const TRIES: u8 = 3;

const SPOILT: u8 = 13;
const BAD_NUMBER: u8 = 18;

/// Who is enrolled; the cabinet that the last accepted tick polled; and how often it was polled running. With tries 0 nobody was polled,
/// and the turn counts for nothing. A fresh desk has zeros.
#[derive(Clone, Copy, Debug, Default, PartialEq)]
pub struct Desk {
    pub enrolled: [bool; CABINETS as usize],
    pub turn: u8,
    pub tries: u8,
}

/// With a cabinet's number, or with whether the one polled answered.
#[derive(Clone, Copy, Debug, PartialEq)]
pub enum Call {
    Enrol(u64),
    Remove(u64),
    Tick(u64),
}

/// The refusal, 0 for none, and whom a tick polls; a refused one polls nobody.
#[derive(Clone, Copy, Debug, PartialEq)]
pub struct Answer {
    pub refusal: u8,
    pub polled: Option<u8>,
}

impl Desk {
    /// Bit k of the mask is cabinet k.
    pub fn of(mask: u32, turn: u8, tries: u8) -> Desk {
        Desk { enrolled: std::array::from_fn(|k| mask >> k & 1 == 1), turn, tries }
    }

    pub fn mask(&self) -> u32 {
        (0..).zip(self.enrolled).map(|(k, is_enrolled)| (is_enrolled as u32) << k).sum()
    }

    /// "A desk whose turn is above 31 or whose tries exceed 3".
    pub fn is_spoilt(&self) -> bool {
        self.turn >= CABINETS || self.tries > TRIES
    }

    /// The cabinet that the last accepted tick polled.
    pub fn in_turn(&self) -> Option<u8> {
        (self.tries > 0).then_some(self.turn)
    }

    pub fn is_enrolled(&self, cabinet: u8) -> bool {
        self.enrolled[cabinet as usize]
    }

    /// The enrolled numbers, the lowest first.
    pub fn numbers(&self) -> impl Iterator<Item = u8> + '_ {
        (0..CABINETS).filter(|cabinet| self.is_enrolled(*cabinet))
    }

    /// "Order: 13 .., then 18".
    fn check(&self, number: u64, most: u64) -> Result<(), u8> {
        if self.is_spoilt() {
            return Err(SPOILT);
        }
        if number > most {
            return Err(BAD_NUMBER);
        }
        Ok(())
    }

    /// The index of a cabinet; or the refusal.
    fn cabinet(&self, number: u64) -> Result<u8, u8> {
        self.check(number, CABINETS as u64 - 1)?;
        Ok(number as u8)
    }

    fn enrol(&mut self, number: u64) -> Result<(), u8> {
        let cabinet = self.cabinet(number)?;
        self.enrolled[cabinet as usize] = true;
        Ok(())
    }

    /// "Removing the one in turn passes the turn at the next tick, whose answer is ignored, even if it is enrolled again first": it has no
    /// try left.
    fn remove(&mut self, number: u64) -> Result<(), u8> {
        let cabinet = self.cabinet(number)?;
        if self.is_enrolled(cabinet) && self.in_turn() == Some(cabinet) {
            self.tries = TRIES;
        }
        self.enrolled[cabinet as usize] = false;
        Ok(())
    }

    /// "The next higher enrolled number, wrapping past 31"; it may be the same again.
    fn next(&self, turn: u8) -> Option<u8> {
        let higher = self.numbers().find(|cabinet| *cabinet > turn);
        higher.or(self.numbers().next())
    }

    fn tick(&mut self, answer: u64) -> Result<Option<u8>, u8> {
        self.check(answer, 1)?;
        let polled = match self.in_turn() {
            // "the lowest enrolled number"
            None => self.numbers().next(),
            Some(turn) if answer == 0 && self.tries < TRIES && self.is_enrolled(turn) => {
                self.tries += 1;
                return Ok(Some(turn));
            }
            Some(turn) => self.next(turn),
        };
        (self.turn, self.tries) = polled.map_or((0, 0), |cabinet| (cabinet, 1));
        Ok(polled)
    }

    pub fn call(&mut self, call: Call) -> Answer {
        let answer = match call {
            Call::Enrol(number) => self.enrol(number).map(|()| None),
            Call::Remove(number) => self.remove(number).map(|()| None),
            Call::Tick(answer) => self.tick(answer),
        };
        match answer {
            Ok(polled) => Answer { refusal: 0, polled },
            Err(refusal) => Answer { refusal, polled: None },
        }
    }
}
