//! Speeds watched from outside: at a controller that runs from power-up, every reading is held to the page by another method than the
//! kept speeds, a book of the times of all periods; and of states, decisions and readings, what is counted.

use crate::bypass_watch::Tick;
use crate::periods::{Periods, PERIOD};
use crate::site::{Site, UNUSED};
use crate::speed_text::tenths;
use crate::speeds::{quotient, whole, Double, LaneSpeeds, Pair, Reading, Speeds, LOOPS};
use crate::tally::Tally;
use crate::tick::State;
use crate::wanted::{lanes, measures, SpeedTests};

// The book.

/// A lane's times, in milliseconds, of the vehicles timed in the open period; and of each completed one, in their order.
#[derive(Clone, Default)]
struct Lane {
    open: Vec<u64>,
    completed: Vec<Vec<u64>>,
}

/// It is near the exact quotient. What is shown of it is, in tenths, 219600 × vehicles ÷ milliseconds rounded down.
fn speed_of(times: &[u64]) -> Double {
    let (vehicles, millis) = (times.len() as u64, times.iter().sum());
    let speed = quotient(vehicles, millis);
    assert_eq!(tenths(speed), 10 * LOOPS * vehicles / millis, "{vehicles} vehicles in {millis} ms are shown otherwise");
    hold_bound(speed, vehicles, millis);
    speed
}

impl Lane {
    /// Looks back through the periods; how many before the last completed one the speed is from.
    fn reading(&self) -> (Reading, usize) {
        let mut back = self.completed.iter().rev().enumerate();
        match back.find(|(_, times)| !times.is_empty()) {
            None => (Reading::Absent, 0),
            Some((0, times)) => (Reading::Measured(speed_of(times)), 0),
            Some((ago, times)) => (Reading::CarriedOver(speed_of(times)), ago),
        }
    }

    /// The slowest vehicle is the one that took longest.
    fn pair(&self) -> Pair {
        let times = self.completed.last().expect("a period was completed");
        let speed = |time: Option<&u64>| time.map_or(Double::ZERO, |time| speed_of(&[*time]));
        Pair { latest: speed(times.last()), slowest: speed(times.iter().max()) }
    }
}

/// The mainline lanes of a run from power-up.
#[derive(Default)]
pub struct Watch {
    lanes: [Lane; 6],
    ticks: u16,
    tally: Tally,
}

impl Watch {
    pub fn power_up(&mut self) {
        (self.lanes, self.ticks) = (Default::default(), 0);
    }

    /// An accepted tick.
    pub fn tick(&mut self, now: Tick) {
        let (_, m) = lanes(now.site);
        let closes = now.before.periods.ticks == PERIOD - 1;
        let timed = now.input.mainline[..m].iter().filter(|sample| sample.timed().is_some()).count();
        self.tally.count("periods that time a vehicle at the 300th tick", (closes && timed != 0) as u64);
        self.tally.count("vehicles timed", timed as u64);
        if closes {
            hold_thresholds(now.site, &now.answer.state.periods);
        }
        self.ticks += 1;
        for (lane, sample) in self.lanes.iter_mut().zip(&now.input.mainline[..m]) {
            lane.open.extend(sample.timed().map(u64::from));
            if self.ticks == PERIOD {
                lane.completed.push(std::mem::take(&mut lane.open));
            }
        }
        self.ticks %= PERIOD;
    }

    /// What a call gives, all accepted ticks since power-up being those of the book.
    pub fn readings(&mut self, given: Result<[LaneSpeeds; 6], u8>) {
        let none = self.lanes[0].completed.is_empty();
        let given = match given {
            Ok(given) => given,
            Err(refusal) => {
                assert!(none && refusal == 12, "refused with {refusal}, periods completed: {}", !none);
                return;
            }
        };
        assert!(!none, "readings where no period was completed");
        for (lane, given) in self.lanes.iter().zip(given) {
            // beyond m nothing is kept from power-up on
            let (wanted, ago) = match lane.completed[..] {
                [] => (LaneSpeeds::default(), 0),
                _ => (LaneSpeeds { reading: lane.reading().0, pair: lane.pair() }, lane.reading().1),
            };
            assert_eq!(given, wanted, "another reading than that of the lane's times");
            self.tally.count("readings watched", 1);
            self.tally.count("readings carried over for one period", (ago == 1) as u64);
            self.tally.count("readings carried over for more than one period", (ago > 1) as u64);
        }
    }

    pub fn count(&self, tally: &mut Tally) {
        tally.add(&self.tally);
    }
}

// Thresholds.

/// Of the last completed period: testing the double against a threshold of the site is testing 21960 × vehicles against threshold ×
/// milliseconds; and the double is off by at most the exact quotient ÷ 2^52.
pub fn hold_thresholds(site: &Site, p: &Periods) {
    let Some(x) = measures(&p.last, lanes(site).1) else {
        return;
    };
    let (vehicles, millis) = (x.timed.vehicles, x.timed.millis);
    if vehicles == 0 {
        return;
    }
    let speed = quotient(vehicles, millis);
    for threshold in site.levels.iter().map(|level| level[3] as u64).filter(|threshold| *threshold != UNUSED as u64) {
        let by_double = !whole(threshold).is_below(speed);
        assert_eq!(by_double, LOOPS * vehicles <= threshold * millis, "{vehicles} vehicles in {millis} ms against {threshold}");
    }
    hold_bound(speed, vehicles, millis);
}

/// A double f × 2^-s, f of 53 bits: 2^52 × |f × millis - 21960 × vehicles × 2^s| is at most 21960 × vehicles × 2^s.
fn hold_bound(speed: Double, vehicles: u64, millis: u64) {
    let fraction = speed.0 as u128 & ((1 << 52) - 1) | 1 << 52;
    let shift = 1023 + 52 - (speed.0 >> 52);
    let exact = ((LOOPS * vehicles) as u128) << shift;
    let off = (fraction * millis as u128).abs_diff(exact);
    assert!(off <= exact >> 52, "{vehicles} vehicles in {millis} ms are off by more than the exact value ÷ 2^52");
}

// What is counted.

/// The edges of a kept speed, by their bits.
pub const EDGES: [(&str, Double); 13] = [
    ("0", Double::ZERO),
    ("-0", Double(0x8000_0000_0000_0000)),
    ("the smallest double above 0", Double(1)),
    ("the double below 0.25", Double(0x3fcf_ffff_ffff_ffff)),
    ("0.25", Double::LEAST),
    ("21960", Double::MOST),
    ("the double above 21960", Double(0x40d5_7200_0000_0001)),
    ("infinity", Double(0x7ff0_0000_0000_0000)),
    ("minus infinity", Double(0xfff0_0000_0000_0000)),
    ("NaN", Double(0x7ff8_0000_0000_0000)),
    ("-0.25", Double(0xbfd0_0000_0000_0000)),
    ("-21960", Double(0xc0d5_7200_0000_0000)),
    ("the greatest double", Double(0x7fef_ffff_ffff_ffff)),
];

/// The names of a lane's five speeds.
pub const NAMES: [&str; 5] = ["latest", "slowest", "latest of the last period", "slowest of the last period", "earlier"];

/// Of a state for m lanes; 0 is not counted, most are.
pub fn count_kept(speeds: &Speeds, m: usize, tally: &mut Tally) {
    for j in 0..6 {
        let beyond = if j < m { "" } else { "beyond m " };
        for (name, speed) in NAMES.iter().zip(speeds.of_lane(j)).filter(|(_, speed)| *speed != Double::ZERO) {
            tally.count(&format!("kept speeds {beyond}besides 0, {name}"), 1);
            if let Some((edge, _)) = EDGES.iter().find(|(_, edge)| *edge == speed) {
                tally.count(&format!("kept speeds {beyond}at {edge}"), 1);
            }
        }
    }
}

/// Of a decision.
pub fn count_tests(tests: &SpeedTests, tally: &mut Tally) {
    if tests.met + tests.unmet + tests.unknown == 0 {
        return;
    }
    tally.count("levels met by speed", tests.met);
    tally.count("levels whose speed equals the threshold", tests.equal);
    tally.count("levels not met by speed", tests.unmet);
    tally.count("levels with no vehicle timed on a good lane", tests.unknown);
}

/// Of what a call gives.
pub fn count_readings(site: Option<&Site>, state: &State, given: Result<[LaneSpeeds; 6], u8>, tally: &mut Tally) {
    tally.count("readings calls", 1);
    let (Ok(given), Some(site)) = (given, site) else {
        tally.count(&format!("readings refused with {}", given.unwrap_err()), 1);
        return;
    };
    let (_, m) = lanes(site);
    tally.count(&format!("readings calls with {m} mainline lanes"), 1);
    for (j, lane) in given[..m].iter().enumerate() {
        let good = state.periods.last.good(j);
        match lane.reading {
            Reading::Absent => tally.count("readings absent", 1),
            Reading::Measured(_) => {
                tally.count("readings measured", 1);
                tally.count("readings measured on a lane that is not good", !good as u64);
            }
            Reading::CarriedOver(_) => tally.count("readings carried over", 1),
        }
    }
}
