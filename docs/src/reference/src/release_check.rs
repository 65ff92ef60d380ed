//! The release search at every cycle that there is, 20 to 720, given to it as a plain number: on groups of 1 to 4 lanes, with every lane
//! in each of six standings, each lane last released, every demand, and both service modes; with 1, 2 and 3 vehicles per green from one
//! cycle to the next, which it does not mind. Then what is found under a bus bypass. The counters are set by the cycle, a tick short of it,
//! at it or at 720, so that all cycles give the same numbers.
//!
//! Each search is held to what the paper says of it, in other words than the search's: lanes are not looked at in turn here. Of all the
//! ready ones it is the one that is the fewest turns behind the last released.

use crate::group::{Group, Interval};
use crate::lanes::{Colour, Lane, LONGEST};
use crate::tick_cases::with_timings;
use crate::timings::Timings;
use std::ops::RangeInclusive;

const CYCLES: RangeInclusive<u16> = 20..=720;
const MOST_LANES: usize = 4;
const MINIMUM_RED: u16 = 15;
/// The greatest prime below 2^32.
const DIGEST_MODULUS: u64 = 4294967291;

// What is found, summed up in a line.

/// How often none and each lane is found, and a digest of the order.
#[derive(Default)]
struct Findings {
    counts: [u32; MOST_LANES + 1],
    digest: u64,
}

impl Findings {
    fn add(&mut self, found: Option<usize>) {
        let number = found.unwrap_or(0);
        self.counts[number] += 1;
        self.digest = (self.digest * 31 + number as u64) % DIGEST_MODULUS;
    }

    fn line(&self, name: &str) -> String {
        let [none, one, two, three, four] = self.counts;
        format!("{name} {none} {one} {two} {three} {four} {}\n", self.digest)
    }
}

// Groups.

/// In metering, with its lanes still to be given their standings.
fn metering(n: usize) -> Group {
    Group { interval: Interval::Metering, offset: 0, ..Group::power_up(n) }
}

/// The six standings of a lane. The first and the fourth are long enough red and a cycle from the last green's start; the others lack one
/// of these, by a tick or by their colour.
const STANDINGS: usize = 6;

fn standing(digit: usize, cycle: u16) -> Lane {
    let (colour, age, counter) = match digit {
        0 => (Colour::Red, MINIMUM_RED, cycle),
        1 => (Colour::Red, MINIMUM_RED - 1, cycle),
        2 => (Colour::Red, MINIMUM_RED, cycle - 1),
        3 => (Colour::Red, LONGEST, LONGEST),
        4 => (Colour::Yellow, MINIMUM_RED, cycle),
        5 => (Colour::Green, MINIMUM_RED, cycle),
        _ => unreachable!("there are six standings"),
    };
    Lane { colour, age, counter, passages: 0 }
}

/// All standings of n lanes, each a number.
fn all_standings(n: usize) -> std::ops::Range<usize> {
    0..STANDINGS.pow(n as u32)
}

/// Gives the lanes the standings of a number, whose lowest digit is lane 1's.
fn place(lanes: &mut [Lane], mut number: usize, cycle: u16) {
    for lane in lanes {
        *lane = standing(number % STANDINGS, cycle);
        number /= STANDINGS;
    }
}

/// The demands of a number, whose lowest bit is lane 1's.
fn demands(number: usize) -> [bool; MOST_LANES] {
    std::array::from_fn(|i| number >> i & 1 == 1)
}

/// A service mode, and where the group's offset counter stands.
struct Way {
    timings: Timings,
    offset: u16,
}

fn timings(n: usize, mode: u16, vehicles: u16, priority_lane: usize) -> Timings {
    Timings::of(&with_timings(&[(0, n as u16), (1, mode), (2, vehicles), (6, MINIMUM_RED), (15, priority_lane as u16)]))
}

/// Mutual exclusion right after a green's start, which it does not mind; fractional offset a tick before the lanes' share is up, then, and
/// long after.
fn ways(n: usize, cycle: u16) -> [Way; 4] {
    let share = cycle.div_ceil(n as u16);
    let stands = [(0, 0), (1, share - 1), (1, share), (1, LONGEST)];
    stands.map(|(mode, offset)| Way { timings: timings(n, mode, cycle % 3 + 1, 0), offset })
}

// What the paper says is found.

/// "Mutual exclusion needs no lane green (yellow may be); fractional offset needs cycle ÷ n, rounded up, since the group's last green
/// start": so many ticks that n times as many are a cycle or more.
fn possible(group: &Group, t: &Timings, cycle: u16) -> bool {
    match t.fractional_offset {
        false => !group.lanes.iter().any(|lane| lane.colour == Colour::Green),
        true => group.offset * t.lanes as u16 >= cycle,
    }
}

fn long_red(lane: &Lane, t: &Timings) -> bool {
    match lane.colour {
        Colour::Red => lane.age >= t.minimum_red,
        Colour::Yellow | Colour::Green => false,
    }
}

/// How many turns a lane is behind the last released: the lane after it 1, itself n.
fn turns_behind(lane: usize, last: usize, n: usize) -> usize {
    if lane > last {
        lane - last
    } else {
        n + lane - last
    }
}

/// None where no release is possible or no lane is ready; else of all the ready lanes the one that is the fewest turns behind.
fn claimed(group: &Group, t: &Timings, cycle: u16, demand: &[bool]) -> Option<usize> {
    if !possible(group, t, cycle) {
        return None;
    }
    let ready = |lane: &usize| {
        let kept = &group.lanes[lane - 1];
        demand[lane - 1] && kept.counter >= cycle && long_red(kept, t)
    };
    (1..=t.lanes).filter(ready).min_by_key(|lane| turns_behind(*lane, group.last, t.lanes))
}

/// Under a bypass: the priority lane where it has been red the minimum and as many lanes are red as there are. Demand, cycle and offset are
/// not asked for.
fn claimed_by_bus(group: &Group, t: &Timings) -> Option<usize> {
    let red = group.lanes.iter().filter(|lane| lane.colour == Colour::Red).count();
    (red == t.lanes && long_red(&group.lanes[t.priority_lane - 1], t)).then_some(t.priority_lane)
}

// The searches.

fn search(group: &Group, t: &Timings, cycle: u16, demand: &[bool]) -> Option<usize> {
    let found = group.search(t, cycle, demand);
    let claimed = claimed(group, t, cycle, demand);
    assert!(found == claimed, "{found:?} is found, not {claimed:?}, at cycle {cycle}, demand {demand:?}, of {group:?}");
    found
}

/// All searches of n lanes that stand as they do.
fn search_all(group: &mut Group, ways: &[Way; 4], cycle: u16, findings: &mut Findings) {
    let n = group.lanes.len();
    for last in 1..=n {
        group.last = last;
        for number in 0..1 << n {
            let demand = &demands(number)[..n];
            for way in ways {
                group.offset = way.offset;
                findings.add(search(group, &way.timings, cycle, demand));
            }
        }
    }
}

fn cycle_line(cycle: u16) -> String {
    let mut findings = Findings::default();
    for n in 1..=MOST_LANES {
        let (mut group, ways) = (metering(n), ways(n, cycle));
        for number in all_standings(n) {
            place(&mut group.lanes, number, cycle);
            search_all(&mut group, &ways, cycle, &mut findings);
        }
    }
    findings.line(&cycle.to_string())
}

fn search_for_bus(group: &Group, t: &Timings) -> Option<usize> {
    let found = group.priority_in_turn(t);
    let claimed = claimed_by_bus(group, t);
    assert!(found == claimed, "{found:?} is found, not {claimed:?}, for a bus on lane {}, of {group:?}", t.priority_lane);
    found
}

/// While a bypass is kept, with each priority lane; the lanes stand as at the shortest cycle.
fn bypass_line() -> String {
    let mut findings = Findings::default();
    for n in 1..=MOST_LANES {
        let mut group = metering(n);
        for number in all_standings(n) {
            place(&mut group.lanes, number, *CYCLES.start());
            for lane in 1..=n {
                findings.add(search_for_bus(&group, &timings(n, 0, 1, lane)));
            }
        }
    }
    findings.line("bypass")
}

/// The heading, a line for each cycle, and that of the bypass.
pub fn print() -> String {
    "cycle none lane1 lane2 lane3 lane4 digest\n".to_string() + &CYCLES.map(cycle_line).collect::<String>() + &bypass_line()
}
