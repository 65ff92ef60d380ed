//! What the program `polling_desk` writes of the lines on standard input: of each an answer, and of a refused one what is wrong.

use crate::desk::{Answer, Call};
use crate::desk_watch::Watched;
use crate::tally::Tally;

/// The bytes of the longest line that may be a call, without its newline.
pub const LONGEST: usize = 4096;

/// On standard output and on standard error.
#[derive(Default)]
pub struct Said {
    pub output: String,
    pub explanation: String,
}

// A line.

/// A call as it is written: the word, and the digits of the number.
struct Written<'a> {
    word: &'a str,
    digits: &'a str,
}

/// The call that a line is. Behind its digits it may have blanks, and then one carriage return.
fn written(line: &[u8]) -> Option<Written<'_>> {
    if line.len() > LONGEST {
        return None;
    }
    let line = std::str::from_utf8(line).ok()?;
    let line = line.strip_suffix('\r').unwrap_or(line).trim_end_matches(' ');
    let (word, digits) = line.split_once(' ')?;
    let is_number = !digits.is_empty() && digits.bytes().all(|byte| byte.is_ascii_digit());
    (["enrol", "remove", "tick"].contains(&word) && is_number).then_some(Written { word, digits })
}

impl Written<'_> {
    fn call(&self) -> Call {
        // beyond 64 bits it is too large as well
        let number = match self.digits.trim_start_matches('0') {
            "" => 0,
            digits => digits.parse().unwrap_or(u64::MAX),
        };
        match self.word {
            "enrol" => Call::Enrol(number),
            "remove" => Call::Remove(number),
            _ => Call::Tick(number),
        }
    }

    /// What is wrong where it is refused.
    fn wrong(&self) -> String {
        let (what, allowed) = if self.word == "tick" { ("answer", "0-1") } else { ("cabinet", "0-31") };
        format!("bad number: {what} {}, allowed {allowed}", self.digits)
    }
}

fn answer(call: Call, answer: Answer) -> String {
    match (answer, call) {
        (Answer { refusal: 0, .. }, Call::Enrol(cabinet)) => format!("enrolled {cabinet}"),
        (Answer { refusal: 0, .. }, Call::Remove(cabinet)) => format!("removed {cabinet}"),
        (Answer { refusal: 0, polled: None }, Call::Tick(_)) => "poll nobody".to_string(),
        (Answer { refusal: 0, polled: Some(cabinet) }, Call::Tick(_)) => format!("poll {cabinet}"),
        (Answer { refusal, .. }, _) => format!("refused {refusal}"),
    }
}

// The program.

/// The lines; behind the last newline there is one only if it has a byte.
fn lines(input: &[u8]) -> Vec<&[u8]> {
    let mut lines: Vec<&[u8]> = input.split(|byte| *byte == b'\n').collect();
    lines.pop_if(|last| last.is_empty());
    lines
}

/// What it writes of this input. The desk is fresh, and watched.
pub fn print(input: &[u8], tally: &mut Tally) -> Said {
    let mut desk = Watched::fresh();
    let mut said = Said::default();
    for (k, line) in (1..).zip(lines(input)) {
        tally.count("lines to the desk", 1);
        tally.count("lines of more than 4096 bytes", (line.len() > LONGEST) as u64);
        let written = written(line);
        tally.count("lines that are no call", written.is_none() as u64);
        let Some(written) = written else {
            said.output += &format!("line {k} is no call: enrol N, remove N or tick A wanted\n");
            continue;
        };
        let call = written.call();
        let given = desk.call(call, &mut Tally::default());
        said.output += &(answer(call, given) + "\n");
        tally.count("lines refused with 18", (given.refusal == 18) as u64);
        if given.refusal != 0 {
            said.explanation += &format!("{} (line {k})\n", written.wrong());
        }
    }
    said
}
