//! Speeds from loop pairs, by document 02: the double of a quotient worked out from whole numbers, without a float; the speeds that are
//! kept of the mainline lanes; and the readings of the last completed period.

use crate::periods::{Counts, Periods};

/// The two loops of a lane are 6.1 m apart: a vehicle that takes a millisecond goes at 21960 km/h.
pub const LOOPS: u64 = 21960;

/// A double-precision number by its bits.
#[derive(Clone, Copy, Debug, Default, PartialEq)]
pub struct Double(pub u64);

const SIGN: u64 = 1 << 63;
const INFINITY: u64 = 0x7ff0_0000_0000_0000;
const QUIET_NAN: u64 = 0x7ff8_0000_0000_0000;
/// Bits of the fraction, and the exponent that stands for 0.
const FRACTION: i32 = 52;
const BIAS: i32 = 1023;

impl Double {
    pub const ZERO: Double = Double(0);
    /// 0.25, the least speed that may be kept besides 0.
    pub const LEAST: Double = Double(0x3fd0_0000_0000_0000);
    /// 21960, the greatest.
    pub const MOST: Double = Double(0x40d5_7200_0000_0000);

    /// A number that came as its bits; every NaN is the same.
    pub fn of_bits(bits: u64) -> Double {
        if bits & !SIGN > INFINITY {
            Double(QUIET_NAN)
        } else {
            Double(bits)
        }
    }

    /// 0, of either sign.
    pub fn is_zero(self) -> bool {
        self.0 & !SIGN == 0
    }

    /// 0, or from 0.25 to 21960. Positive numbers are in the order of their bits, and all others are above them as bits.
    fn may_be_kept(self) -> bool {
        self.is_zero() || (Double::LEAST.0..=Double::MOST.0).contains(&self.0)
    }

    /// Whether this positive number is below that one.
    pub fn is_below(self, other: Double) -> bool {
        self.0 < other.0
    }

    /// The number as four words, the highest first.
    pub fn words(self) -> [u16; 4] {
        [48, 32, 16, 0].map(|shift| (self.0 >> shift) as u16)
    }

    pub fn of_words(words: [u16; 4]) -> Double {
        Double::of_bits(words.into_iter().fold(0, |bits, word| bits << 16 | word as u64))
    }

    pub fn hex(self) -> String {
        format!("{:016x}", self.0)
    }
}

/// A whole number ÷ another, both above 0 and neither so large that its shift is lost, rounded to the nearest double, a half to the even
/// one.
pub fn rounded(a: u64, b: u64) -> Double {
    let (a, b) = (a as u128, b as u128);
    // the first shift by which the quotient has 53 bits: with a lower one than this it has not, with one more it surely has
    let lowest = FRACTION + b.ilog2() as i32 - a.ilog2() as i32;
    let shift = if (a << lowest) / b >= 1 << FRACTION { lowest } else { lowest + 1 };
    let (down, left) = ((a << shift) / b, (a << shift) % b);
    assert_eq!(down >> FRACTION, 1, "the quotient has not 53 bits");
    let up = 2 * left > b || (2 * left == b && down % 2 == 1);
    // the highest of the 53 bits adds one to the exponent; a carry into a 54th adds another one
    let exponent = (BIAS + FRACTION - shift - 1) as u64;
    Double((exponent << FRACTION) + (down + up as u128) as u64)
}

/// A whole number above 0.
pub fn whole(n: u64) -> Double {
    rounded(n, 1)
}

/// The speed of so many vehicles that took so many milliseconds in all.
pub fn quotient(vehicles: u64, millis: u64) -> Double {
    rounded(LOOPS * vehicles, millis)
}

// What is kept.

/// A lane's record of a period; both 0 until a vehicle is timed.
#[derive(Clone, Copy, Debug, Default, PartialEq)]
pub struct Pair {
    pub latest: Double,
    pub slowest: Double,
}

impl Pair {
    /// A vehicle that took so many milliseconds.
    fn time(&mut self, millis: u16) {
        let speed = quotient(1, millis as u64);
        self.latest = speed;
        if self.slowest.is_zero() || speed.is_below(self.slowest) {
            self.slowest = speed;
        }
    }
}

/// Of the open period and of the last completed one; and of each lane the speed last measured in a period before that, 0 for none.
#[derive(Clone, Copy, Debug, Default, PartialEq)]
pub struct Speeds {
    pub current: [Pair; 6],
    pub last: [Pair; 6],
    pub earlier: [Double; 6],
}

impl Speeds {
    /// All of them: the open period's lane by lane, latest before slowest; the last completed one's; the earlier ones.
    pub fn doubles(&self) -> Vec<Double> {
        let pairs = self.current.iter().chain(&self.last).flat_map(|pair| [pair.latest, pair.slowest]);
        pairs.chain(self.earlier).collect()
    }

    /// The five of a lane, in the same order.
    pub fn of_lane(&self, j: usize) -> [Double; 5] {
        let (current, last) = (self.current[j], self.last[j]);
        [current.latest, current.slowest, last.latest, last.slowest, self.earlier[j]]
    }

    pub fn of_lane_mut(&mut self, j: usize) -> [&mut Double; 5] {
        let (current, last) = (&mut self.current[j], &mut self.last[j]);
        [&mut current.latest, &mut current.slowest, &mut last.latest, &mut last.slowest, &mut self.earlier[j]]
    }

    /// One out of range, or one kept beyond m.
    pub fn spoilt(&self, m: usize) -> bool {
        let out_of_range = |j: usize| self.of_lane(j).iter().any(|speed| !speed.may_be_kept());
        let kept = |j: usize| self.of_lane(j).iter().any(|speed| !speed.is_zero());
        (0..m).any(out_of_range) || (m..6).any(kept)
    }

    /// A vehicle on a lane.
    pub fn time(&mut self, j: usize, millis: u16) {
        self.current[j].time(millis);
    }

    /// The period ends; these counts are those of the one before it.
    pub fn close(&mut self, before: &Counts) {
        for j in 0..self.earlier.len() {
            if let Some(speed) = measured(before, j) {
                self.earlier[j] = speed;
            }
        }
        self.last = std::mem::take(&mut self.current);
    }
}

// Readings.

/// A lane's speed in a period that timed a vehicle there.
fn measured(counts: &Counts, j: usize) -> Option<Double> {
    match counts.timed[j] {
        0 => None,
        timed => Some(quotient(timed as u64, counts.millis[j] as u64)),
    }
}

#[derive(Clone, Copy, Debug, Default, PartialEq)]
pub enum Reading {
    #[default]
    Absent,
    Measured(Double),
    CarriedOver(Double),
}

impl Reading {
    /// Of the last completed period.
    fn of(p: &Periods, j: usize) -> Reading {
        let earlier = p.speeds.earlier[j];
        match measured(&p.last, j) {
            Some(speed) => Reading::Measured(speed),
            None if earlier.is_zero() => Reading::Absent,
            None => Reading::CarriedOver(earlier),
        }
    }

    /// The case's number and its speed.
    pub fn numbers(self) -> (u8, Double) {
        match self {
            Reading::Absent => (0, Double::ZERO),
            Reading::Measured(speed) => (1, speed),
            Reading::CarriedOver(speed) => (2, speed),
        }
    }
}

/// A lane's reading, and its latest and slowest speed of the last completed period.
#[derive(Clone, Copy, Debug, Default, PartialEq)]
pub struct LaneSpeeds {
    pub reading: Reading,
    pub pair: Pair,
}

/// Of all six lanes, with no check.
pub fn of_last(p: &Periods) -> [LaneSpeeds; 6] {
    std::array::from_fn(|j| LaneSpeeds { reading: Reading::of(p, j), pair: p.speeds.last[j] })
}
