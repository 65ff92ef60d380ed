//! The cabinet's rate sheet: for every rate the cycle at 1, 2 and 3 vehicles per green, in seconds.
//!
//! No cycle is worked out by dividing here, nor asked of `wanted`: among the whole ticks the one that is nearest to 36000 × V ÷ rate is
//! looked for. How near one is, times the rate, is a whole number, so that two of them compare exactly; of two that are as near it is the
//! greater.

use std::ops::RangeInclusive;

const RATES: RangeInclusive<u16> = 150..=1800;
/// The cycle is looked for among these, from 0 to more than the longest.
const TICKS: RangeInclusive<u32> = 0..=1000;

/// How far so many ticks are from 36000 × V ÷ rate, times the rate.
fn distance(ticks: u32, vehicles: u16, rate: u16) -> u32 {
    (ticks * rate as u32).abs_diff(36000 * vehicles as u32)
}

/// The whole ticks nearest to 36000 × V ÷ rate, of two the greater.
pub fn nearest(vehicles: u16, rate: u16) -> u16 {
    // of equal distances `min_by_key` takes the first, from the greatest on
    TICKS.rev().min_by_key(|ticks| distance(*ticks, vehicles, rate)).expect("some ticks") as u16
}

/// Tenths as seconds with one decimal.
pub fn seconds(tenths: u16) -> String {
    format!("{}.{}", tenths / 10, tenths % 10)
}

fn line(rate: u16) -> String {
    let [one, two, three] = [1, 2, 3].map(|vehicles| seconds(nearest(vehicles, rate)));
    format!("{rate} {one} {two} {three}\n")
}

/// The heading, and a line for each rate.
pub fn print() -> String {
    "rate V1 V2 V3\n".to_string() + &RATES.map(line).collect::<String>()
}
