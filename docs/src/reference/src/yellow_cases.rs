//! The cases of `crates/yellow_cases`, pairs of a speed and a grade, and what it prints of them. Stored are all pairs in range and just
//! outside, and far numbers in either place.

use crate::slope::{self, yellow, GRADES, SPEEDS};
use crate::tally::Tally;

/// There are fewer stored cases than this.
const TOO_MANY: usize = 13000;

// A case.

/// A number as its sign and its magnitude: sign 0 and k is k, sign 1 and k is -1 - k.
fn number_bytes(n: i64) -> Vec<u8> {
    let (sign, magnitude) = if n < 0 { (1_u16, -1 - n) } else { (0, n) };
    [&sign.to_be_bytes()[..], &magnitude.to_be_bytes()].concat()
}

fn number_of(bytes: &[u8]) -> i64 {
    let (sign, magnitude) = bytes.split_at(2);
    let magnitude = i64::from_be_bytes(magnitude.try_into().expect("four numbers"));
    assert!(magnitude >= 0, "a magnitude of 2^63 or more");
    match sign {
        [0, 0] => magnitude,
        [0, 1] => -1 - magnitude,
        _ => panic!("a sign besides 0 and 1"),
    }
}

pub fn case(speed: i64, grade: i64) -> Vec<u8> {
    [number_bytes(speed), number_bytes(grade)].concat()
}

/// The line of a case.
pub fn answer(case: &[u8], tally: &mut Tally) -> String {
    let (speed, grade) = case.split_at(case.len() / 2);
    let (speed, grade) = (number_of(speed), number_of(grade));
    let given = yellow(speed, grade);
    tally.count("yellows", 1);
    match (SPEEDS.contains(&speed), GRADES.contains(&grade)) {
        (true, true) => {}
        (false, true) => tally.count("yellows refused for the speed alone", 1),
        (true, false) => tally.count("yellows refused for the grade alone", 1),
        (false, false) => tally.count("yellows refused for speed and grade", 1),
    }
    tally.count("yellows refused", (given.refusal != 0) as u64);
    format!("{speed} {grade} {} {}\n", given.refusal, given.ticks)
}

// Stored ones.

/// Numbers out of one range or of both: small ones, those about the ends of shorter numbers, and speeds with another sign or in another of
/// the four words.
const FAR: [[i64; 6]; 7] = [
    [-1, 0, 1, 18, 82, -82],
    [-20, -21, -40, -41, -80, -81],
    [127, 128, -128, -129, 255, 256],
    [32767, 32768, -32768, -32769, 65535, 65536],
    [(1 << 31) - 1, 1 << 31, -(1 << 31), -(1 << 31) - 1, (1 << 32) - 1, 1 << 32],
    [40 << 16, 40 << 32, 40 << 48, 1 << 62, (1 << 62) + 40, -(1 << 62)],
    [i64::MAX, i64::MAX - 1, i64::MAX - 79, i64::MIN, i64::MIN + 1, i64::MIN + 40],
];

/// What a number becomes once it is cut to so many bits: a speed in range, a grade in range, or both.
const KEPT: [i64; 6] = [20, 40, 80, 0, -1, -80];
const BITS: [u32; 4] = [8, 16, 32, 48];

/// Beside a far speed or grade: in range, just outside, cut, and the least and the greatest.
const GRADES_BESIDE: [i64; 8] = [-80, 0, 80, -81, 81, 256 - 80, i64::MIN, i64::MAX];
const SPEEDS_BESIDE: [i64; 8] = [20, 40, 80, 19, 81, 256 + 40, i64::MIN, i64::MAX];

/// Numbers that are out of range, and cut to so many bits in range.
fn cut_numbers() -> Vec<i64> {
    let beyond = BITS.iter().flat_map(|bits| [1 << bits, -(1 << bits)]);
    beyond.flat_map(|beyond: i64| KEPT.map(|kept| beyond + kept)).collect()
}

fn pairs() -> Vec<(i64, i64)> {
    let mut out: Vec<(i64, i64)> = (19..=81).flat_map(|speed| (-81..=81).map(move |grade| (speed, grade))).collect();
    let far = [FAR.concat(), cut_numbers()].concat();
    out.extend(far.iter().flat_map(|speed| GRADES_BESIDE.map(|grade| (*speed, grade))));
    out.extend(far.iter().flat_map(|grade| SPEEDS_BESIDE.map(|speed| (speed, *grade))));
    out
}

pub fn cases() -> Vec<Vec<u8>> {
    slope::check();
    let cases: Vec<Vec<u8>> = pairs().into_iter().map(|(speed, grade)| case(speed, grade)).collect();
    assert!(cases.len() < TOO_MANY, "{} cases", cases.len());
    cases
}
