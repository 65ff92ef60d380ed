//! What the program `yellow_sheet` writes: the sheet of yellows; one yellow, of two words; and what is wrong with its words.

use crate::rate_sheet::seconds;
use crate::slope::{self, yellow, Yellow, GRADES, SPEEDS};

const USAGE: &str = "usage: yellow_sheet [SPEED GRADE]\n";
const HELP: &str = "\
Prints the yellow in seconds for each approach speed, 20 to 80 km/h, and each grade, -80 to 80 per mille in steps of 10.
Downhill is negative. With SPEED and GRADE it prints that one yellow in ticks and in seconds, as a line for a site's text.
docs/FORMATS.md describes both.
";
/// The bytes of the longest word that may be a number.
const LONGEST: usize = 4096;
/// Per mille from one column of the sheet to the next.
const STEP: usize = 10;

/// On standard output and on standard error. An explanation has words as they were given, which may be no UTF-8.
#[derive(Default)]
pub struct Said {
    pub output: String,
    pub explanation: Vec<u8>,
}

impl Said {
    fn only_output(output: String) -> Said {
        Said { output, ..Said::default() }
    }

    /// What is wrong, and how the program is called.
    fn only_usage(wrong: &[u8]) -> Said {
        Said { explanation: [wrong, USAGE.as_bytes()].concat(), ..Said::default() }
    }
}

// The sheet.

/// A line: its first word, and a word for each grade.
fn line(first: &str, word: impl Fn(i64) -> String) -> String {
    let words: String = GRADES.step_by(STEP).map(|grade| format!(" {}", word(grade))).collect();
    format!("{first}{words}\n")
}

/// The heading, and a line for each speed.
fn sheet() -> String {
    slope::check();
    let lines = SPEEDS.map(|speed| line(&speed.to_string(), |grade| seconds(yellow(speed, grade).ticks)));
    line("speed", |grade| grade.to_string()) + &lines.collect::<String>()
}

// One yellow.

/// The number that a word is: a sign or none, then digits alone. One that no i64 holds counts as the greatest, or minus the greatest: both
/// are out of range.
fn number(word: &[u8]) -> Option<i64> {
    let (sign, digits) = match word {
        [b'-', digits @ ..] => (-1, digits),
        [b'+', digits @ ..] => (1, digits),
        digits => (1, digits),
    };
    if word.len() > LONGEST || digits.is_empty() || !digits.iter().all(u8::is_ascii_digit) {
        return None;
    }
    let add = |sum: i64, digit: &u8| sum.saturating_mul(10).saturating_add((digit - b'0') as i64);
    Some(sign * digits.iter().fold(0, add))
}

/// A line about a word that is no number.
fn no_number(name: &str, word: &[u8]) -> Vec<u8> {
    if word.is_empty() {
        return format!("the {name} is empty\n").into_bytes();
    }
    if word.len() > LONGEST {
        return format!("the {name} is longer than {LONGEST} bytes\n").into_bytes();
    }
    [name.as_bytes(), b" ", word, b" is no number\n"].concat()
}

/// A line about a word that is a number out of range.
fn bad_slope(name: &str, word: &[u8], allowed: &str) -> Vec<u8> {
    [b"bad approach: ", name.as_bytes(), b" ", word, b", allowed ", allowed.as_bytes(), b"\n"].concat()
}

fn refused(refusal: u8, speed: (i64, &[u8]), grade: (i64, &[u8])) -> Said {
    let mut explanation = Vec::new();
    if !SPEEDS.contains(&speed.0) {
        explanation.extend(bad_slope("speed", speed.1, "20-80"));
    }
    if !GRADES.contains(&grade.0) {
        explanation.extend(bad_slope("grade", grade.1, "-80 to 80"));
    }
    Said { output: format!("refused {refusal}\n"), explanation }
}

fn one_yellow(speed_word: &[u8], grade_word: &[u8]) -> Said {
    let (speed, grade) = match (number(speed_word), number(grade_word)) {
        (Some(speed), Some(grade)) => (speed, grade),
        (None, Some(_)) => return Said::only_usage(&no_number("speed", speed_word)),
        (Some(_), None) => return Said::only_usage(&no_number("grade", grade_word)),
        (None, None) => return Said::only_usage(&[no_number("speed", speed_word), no_number("grade", grade_word)].concat()),
    };
    match yellow(speed, grade) {
        Yellow { refusal: 0, ticks } => {
            Said::only_output(format!("{ticks} # ticks, yellow {} s at {speed} km/h and {grade} per mille\n", seconds(ticks)))
        }
        Yellow { refusal, .. } => refused(refusal, (speed, speed_word), (grade, grade_word)),
    }
}

// The program.

/// What it writes, given these words.
pub fn print(words: &[Vec<u8>]) -> Said {
    match words {
        [] => Said::only_output(sheet()),
        [word] if word == b"--help" => Said::only_output(USAGE.to_string() + HELP),
        [speed, grade] => one_yellow(speed, grade),
        [_] => Said::only_usage(b"1 argument, none or 2 wanted\n"),
        _ => Said::only_usage(format!("{} arguments, none or 2 wanted\n", words.len()).as_bytes()),
    }
}
