//! Speeds as replay shows them: in km/h with one decimal.

use crate::speeds::{quotient, rounded, Double, LaneSpeeds, Reading};

/// The most tenths, those of 21960 km/h.
const MOST: u64 = 219_600;

/// So many tenths as a double, to the nearest.
fn of_tenths(tenths: u64) -> Double {
    match tenths {
        0 => Double::ZERO,
        _ => rounded(tenths, 10),
    }
}

/// The greatest number of tenths whose double is not above the speed; 0 if there is none.
pub fn tenths(speed: Double) -> u64 {
    if speed.is_zero() {
        return 0;
    }
    // at low or below it is not above; above high it is
    let (mut low, mut high) = (0, MOST);
    while low < high {
        let middle = (low + high).div_ceil(2);
        if speed.is_below(of_tenths(middle)) {
            high = middle - 1;
        } else {
            low = middle;
        }
    }
    low
}

/// Of every travel time that is 219600 ÷ it, rounded down.
pub fn hold_times() {
    for time in 1..=65535 {
        assert_eq!(tenths(quotient(1, time)), MOST / time, "a time of {time} ms");
    }
}

fn shown(speed: Double) -> String {
    let tenths = tenths(speed);
    format!("{}.{}", tenths / 10, tenths % 10)
}

fn lane_words(lane: &LaneSpeeds) -> String {
    let case = match lane.reading {
        Reading::Absent => '-',
        Reading::Measured(_) => 'm',
        Reading::CarriedOver(_) => 'c',
    };
    let (_, speed) = lane.reading.numbers();
    format!(" {case} {} {} {}", shown(speed), shown(lane.pair.latest), shown(lane.pair.slowest))
}

/// The line of these lanes.
pub fn line(lanes: &[LaneSpeeds]) -> String {
    let words: String = lanes.iter().map(lane_words).collect();
    format!("speeds{words}\n")
}
