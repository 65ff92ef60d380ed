//! Fresh random cases of a seed for `crates/yellow_cases`, and pairs of words for the program `yellow_sheet`.

use crate::random::Random;
use crate::slope::{GRADES, SPEEDS};
use crate::tally::Tally;
use crate::yellow_cases::case;
use crate::yellow_sheet::{self, Said};
use std::ops::RangeInclusive;

/// In one seed.
const CASES: usize = 4000;
const CALLS: usize = 150;

// Numbers.

fn between(r: &mut Random, low: i64, high: i64) -> i64 {
    low + r.from(0, (high - low) as u64) as i64
}

/// Any of 64 bits.
fn any_bits(r: &mut Random) -> i64 {
    let half = u32::MAX as u64;
    (r.from(0, half) << 32 | r.from(0, half)) as i64
}

/// At an end of the range, or up to three beyond or before it.
fn near(r: &mut Random, range: &RangeInclusive<i64>) -> i64 {
    let end = r.pick(&[*range.start(), *range.end()]);
    between(r, end - 3, end + 3)
}

/// One in range with other bits above its low ones: cut to these it is in range again.
fn cut(r: &mut Random, range: &RangeInclusive<i64>) -> i64 {
    let bits = r.pick(&[8, 16, 32, 48]);
    let any = any_bits(r) >> bits;
    let above = r.pick(&[1, -1, any]);
    between(r, *range.start(), *range.end()).wrapping_add(above << bits)
}

/// Of 64 bits or fewer, or the least or the greatest.
fn anything(r: &mut Random) -> i64 {
    let any = any_bits(r) >> r.pick(&[0, 0, 16, 32, 48]);
    r.pick(&[i64::MIN, i64::MAX, any, any, any, any])
}

/// Mostly in range; near an end, cut, or anything.
fn number(r: &mut Random, range: &RangeInclusive<i64>) -> i64 {
    match r.from(0, 9) {
        0..=5 => between(r, *range.start(), *range.end()),
        6 | 7 => near(r, range),
        8 => cut(r, range),
        _ => anything(r),
    }
}

pub fn cases(seed: u64) -> Vec<Vec<u8>> {
    let mut r = Random::new(seed);
    (0..CASES).map(|_| case(number(&mut r, &SPEEDS), number(&mut r, &GRADES))).collect()
}

// Words.

/// What looks like a number and is none, and what does not.
const NO_NUMBERS: [&[u8]; 30] = [
    b"", b"", b"40.5", b"40.0", b"4O", b"--5", b"-+5", b"+-5", b"++5", b"+", b"-", b" 40", b"40 ", b"4 0", b"40\n", b"\t40",
    b"1e1", b"0x28", b"40,0", b"40-", b"40+", b"abc", b"--help", b"--help", b"-h", b"#40", b"4\x80", b"\xff", b"\xc3\xa4",
    b"\xe2\x88\x9240",
];

/// A number as it may be written: with or without a plus sign, behind zeros or not; 0 at times with a minus sign.
fn written(r: &mut Random, n: i64) -> Vec<u8> {
    let sign = match n {
        ..=-1 => "-",
        0 => r.pick(&["", "+", "-"]),
        _ => r.pick(&["", "", "", "+"]),
    };
    let zeros = r.pick(&[0, 0, 0, 0, 0, 1, 2, 17, 300]);
    format!("{sign}{}{}", "0".repeat(zeros), n.unsigned_abs()).into_bytes()
}

/// A number of many digits, about as many as 64 bits have, up to some hundred, or about as many as a word may have. Its last ones may be in
/// range.
fn long_number(r: &mut Random) -> Vec<u8> {
    let (short, long) = r.pick(&[(17, 22), (37, 41), (100, 500), (4091, 4097)]);
    let many = r.from(short, long);
    let sign = r.pick(&["", "+", "-"]);
    let first = r.from(1, 9);
    let others = r.pick(&[None, Some(0), Some(9)]);
    let digits: String = (0..many).map(|_| others.unwrap_or_else(|| r.from(0, 9)).to_string()).collect();
    format!("{sign}{first}{digits}{}", r.pick(&["", "40", "0"])).into_bytes()
}

/// A number with a byte put in or changed. No argument has a byte that is 0.
fn spoilt(r: &mut Random, mut word: Vec<u8>) -> Vec<u8> {
    let byte = r.number(1, 255) as u8;
    let at = r.from(0, word.len() as u64 - 1) as usize;
    if r.percent(50) {
        word.insert(at, byte);
    } else {
        word[at] = byte;
    }
    word
}

fn any_bytes(r: &mut Random) -> Vec<u8> {
    (0..r.from(1, 12)).map(|_| r.number(1, 255) as u8).collect()
}

fn word(r: &mut Random, range: &RangeInclusive<i64>) -> Vec<u8> {
    let n = number(r, range);
    match r.from(0, 19) {
        0 | 1 => r.pick(&NO_NUMBERS).to_vec(),
        2 => any_bytes(r),
        3 => {
            let word = written(r, n);
            spoilt(r, word)
        }
        4 => long_number(r),
        _ => written(r, n),
    }
}

/// The two words of each call.
pub fn calls(seed: u64) -> Vec<[Vec<u8>; 2]> {
    let mut r = Random::new(seed);
    (0..CALLS).map(|_| [word(&mut r, &SPEEDS), word(&mut r, &GRADES)]).collect()
}

/// What the program writes of a call.
pub fn answer(words: &[Vec<u8>; 2], tally: &mut Tally) -> Said {
    let said = yellow_sheet::print(words);
    tally.count("yellow sheets asked for one yellow", 1);
    tally.count("yellow sheets refused", said.output.starts_with("refused ") as u64);
    tally.count("yellow sheets with a word that is no number", said.output.is_empty() as u64);
    said
}
