//! The state and one tick of document 01, with the preemption, the bus bypass and the speeds of document 02: its checks, then counts, what
//! is wanted, group interval, bypass, lane intervals, release.

use crate::bypass::{Bypass, Phase};
use crate::calendar::{clock_ok, Clock};
use crate::group::{Group, Indications, Interval, Wanted, OLDEST};
use crate::lanes::{Colour, Lane, LONGEST, MOST_PASSAGES};
use crate::output;
use crate::periods::{halves, Periods, Sample};
use crate::poll;
use crate::site::{self, Site};
use crate::speeds::{self, Double, LaneSpeeds};
use crate::timings::Timings;
use crate::wanted::{command_ok, cycle, decide, lanes, Command, Decision, SpeedTests, Wish};

// The state.

/// A lane's numbers as they are kept: 1 red, 2 yellow, 3 green; all 0 beyond n.
#[derive(Clone, Copy, Debug, Default, PartialEq)]
pub struct KeptLane {
    pub colour: u16,
    pub age: u16,
    pub counter: u16,
    pub passages: u16,
}

/// A state as it is kept, with any numbers.
#[derive(Clone, Copy, Debug, Default)]
pub struct State {
    pub interval: u16,
    pub age: u16,
    pub lanes: [KeptLane; 4],
    pub offset: u16,
    pub last: u16,
    pub bypass: Bypass,
    pub periods: Periods,
}

fn keep(group: &Group, periods: Periods) -> State {
    let mut state = State {
        interval: group.interval.number(),
        age: group.age,
        lanes: [KeptLane::default(); 4],
        offset: group.offset,
        last: group.last as u16,
        bypass: group.bypass,
        periods,
    };
    for (kept, lane) in state.lanes.iter_mut().zip(&group.lanes) {
        let Lane { colour, age, counter, passages } = *lane;
        *kept = KeptLane { colour: colour.number(), age, counter, passages };
    }
    state
}

/// The group of a state that is not spoilt.
fn group_of(state: &State, n: usize) -> Group {
    let lane = |kept: &KeptLane| {
        let KeptLane { colour, age, counter, passages } = *kept;
        Lane { colour: Colour::of(colour).expect("a colour"), age, counter, passages }
    };
    Group {
        interval: Interval::of(state.interval).expect("an interval"),
        age: state.age,
        lanes: state.lanes[..n].iter().map(lane).collect(),
        offset: state.offset,
        last: state.last as usize,
        bypass: state.bypass,
    }
}

// Checks.

/// A lane's number out of range, or a colour other than red where the lanes do not run.
fn lane_spoilt(lane: &KeptLane, running: bool) -> bool {
    let colour_ok = match Colour::of(lane.colour) {
        None => false,
        Some(colour) => running || colour == Colour::Red,
    };
    !colour_ok || lane.age > LONGEST || lane.counter > LONGEST || lane.passages > MOST_PASSAGES
}

/// 13: of a site that a file could give.
pub fn state_spoilt(site: &Site, state: &State) -> bool {
    let (n, m) = lanes(site);
    let Some(interval) = Interval::of(state.interval) else {
        return true;
    };
    state.age > OLDEST
        || state.offset > LONGEST
        || !(1..=n as u16).contains(&state.last)
        || state.lanes[..n].iter().any(|lane| lane_spoilt(lane, interval.runs_lanes()))
        || state.lanes[n..].iter().any(|lane| *lane != KeptLane::default())
        || state.bypass.spoilt(interval == Interval::Metering, site.timings[15])
        || state.periods.spoilt(n, m)
}

/// One tick's input, with any numbers.
#[derive(Clone, Copy, Debug)]
pub struct Input {
    pub clock: Clock,
    pub demand: [u16; 4],
    pub passage: [u16; 4],
    pub mainline: [Sample; 6],
    pub preemption: u16,
    pub bypass: u16,
    /// Manual and communications.
    pub commands: [Command; 2],
}

impl Input {
    /// All zero but for the clock.
    pub fn at(clock: Clock) -> Input {
        Input {
            clock,
            demand: [0; 4],
            passage: [0; 4],
            mainline: [Sample::default(); 6],
            preemption: 0,
            bypass: 0,
            commands: [Command::default(); 2],
        }
    }
}

/// A travel time is any two-byte number.
fn sample_ok(s: &Sample) -> bool {
    s.working <= 1 && s.occupied <= 100 && s.vehicles <= 1
}

/// 9, the other way round: all in range, and lanes beyond n or m are not looked at.
fn samples_ok(site: &Site, input: &Input) -> bool {
    let (n, m) = lanes(site);
    let bits = input.demand[..n].iter().chain(&input.passage[..n]).chain([&input.preemption, &input.bypass]);
    bits.into_iter().all(|sample| *sample <= 1) && input.mainline[..m].iter().all(sample_ok)
}

/// The checks of a tick behind 14, in their order; 0 when all hold.
fn refusal(site: &Site, state: &State, input: &Input) -> u8 {
    if state_spoilt(site, state) {
        13
    } else if !clock_ok(input.clock) {
        8
    } else if !samples_ok(site, input) {
        9
    } else if !input.commands.iter().all(|c| command_ok(*c)) {
        10
    } else {
        0
    }
}

// Power-up, tick, decision, poll, readings and write. Each takes the site of a record, or none where no file could give the record: 14.

/// The refusal, 0 or 14, and the state; refused, it is all zero.
pub fn power_up(site: Option<&Site>) -> (u8, State) {
    let Some(site) = site else {
        return (14, State::default());
    };
    (0, keep(&Group::power_up(lanes(site).0), Periods::default()))
}

#[derive(Clone, Copy, Debug)]
pub struct Answer {
    pub refusal: u8,
    pub state: State,
    pub indications: Indications,
    pub decision: Decision,
    /// Of a wish to meter, in every interval; else 0.
    pub cycle: u16,
    /// The lane released, from 1, or 0.
    pub released: usize,
    pub bypass: Phase,
}

const NO_TESTS: SpeedTests = SpeedTests { met: 0, equal: 0, unmet: 0, unknown: 0 };
pub const NOTHING_DECIDED: Decision =
    Decision { day: None, entry: 0, days_ago: 0, source: "plan", level: 0, wish: Wish::Dark, tests: NO_TESTS };

/// The state as it came, and nothing decided.
fn refused(refusal: u8, indications: Indications, state: &State) -> Answer {
    Answer { refusal, state: *state, indications, decision: NOTHING_DECIDED, cycle: 0, released: 0, bypass: Phase::None }
}

fn accepted(site: &Site, state: &State, input: &Input) -> Answer {
    let (n, m) = lanes(site);
    let on = |samples: &[u16; 4]| samples[..n].iter().map(|s| *s == 1).collect::<Vec<bool>>();
    let (demand, passage) = (on(&input.demand), on(&input.passage));

    let mut periods = state.periods;
    periods.count(&passage, &input.mainline[..m]);

    let decision = decide(site, input.clock, input.commands, &periods);
    let cycle = match decision.wish {
        Wish::Metering(rate) => Some(cycle(site, rate) as u16),
        _ => None,
    };

    let mut group = group_of(state, n);
    let wanted = Wanted {
        wish: decision.wish,
        preemption: input.preemption == 1,
        bypass: input.bypass == 1,
        cycle,
        demand,
        passage,
    };
    let timings = Timings::of(site);
    let released = group.tick(&timings, &wanted);
    if let Some(lane) = released {
        periods.green_begun(lane);
    }

    Answer {
        refusal: 0,
        state: keep(&group, periods),
        indications: group.indications(),
        decision,
        cycle: cycle.unwrap_or(0),
        released: released.unwrap_or(0),
        bypass: group.bypass_phase(&timings),
    }
}

pub fn tick(site: Option<&Site>, state: &State, input: &Input) -> Answer {
    let Some(site) = site else {
        return refused(14, Indications::default(), state);
    };
    match refusal(site, state, input) {
        0 => accepted(site, state, input),
        13 => refused(13, Indications::default(), state),
        number => refused(number, group_of(state, lanes(site).0).indications(), state),
    }
}

/// What is decided at a clock, under manual and communications commands; checks 14, 13, 8, 10.
pub fn decision(site: Option<&Site>, state: &State, clock: Clock, commands: [Command; 2]) -> Result<Decision, u8> {
    let site = site.ok_or(14)?;
    if state_spoilt(site, state) {
        return Err(13);
    }
    if !clock_ok(clock) {
        return Err(8);
    }
    if !commands.iter().all(|c| command_ok(*c)) {
        return Err(10);
    }
    Ok(decide(site, clock, commands, &state.periods))
}

/// The site, where it and the state are in range and a period was completed; checks 14, 13, 12.
fn completed<'a>(site: Option<&'a Site>, state: &State) -> Result<&'a Site, u8> {
    let site = site.ok_or(14)?;
    if state_spoilt(site, state) {
        return Err(13);
    }
    if state.periods.serial == 0 {
        return Err(12);
    }
    Ok(site)
}

/// The poll record; checks 14, 13, 12.
pub fn poll_record(site: Option<&Site>, state: &State) -> Result<Vec<u8>, u8> {
    let (n, m) = lanes(completed(site, state)?);
    Ok(poll::record(n, m, &state.periods))
}

/// Each mainline lane's reading, latest and slowest speed of the last completed period; checks 14, 13, 12.
pub fn readings(site: Option<&Site>, state: &State) -> Result<[LaneSpeeds; 6], u8> {
    completed(site, state)?;
    Ok(speeds::of_last(&state.periods))
}

/// Polls into a buffer; checks 11 last.
pub fn poll(site: Option<&Site>, state: &State, out: &mut [u8]) -> Result<usize, u8> {
    output::write(&poll_record(site, state)?, out)
}

/// Writes the site's file; checks 14, 11.
pub fn write(site: Option<&Site>, out: &mut [u8]) -> Result<usize, u8> {
    output::write(&site::bytes(site.ok_or(14)?), out)
}

// The state as a row of numbers.

/// Group and lanes: interval, age, colours, ages, counters, passage counts, offset, last; the bypass kept 0 or 1, its mark 0
/// or 1, its timer.
fn group_numbers(state: &State) -> Vec<u16> {
    let mut out = vec![state.interval, state.age];
    out.extend(state.lanes.iter().map(|lane| lane.colour));
    out.extend(state.lanes.iter().map(|lane| lane.age));
    out.extend(state.lanes.iter().map(|lane| lane.counter));
    out.extend(state.lanes.iter().map(|lane| lane.passages));
    let Bypass { kept, mark, timer } = state.bypass;
    out.extend([state.offset, state.last, kept as u16, mark as u16, timer]);
    out
}

impl State {
    /// The state in 101 numbers, and its thirty speeds besides.
    pub fn numbers(&self) -> Vec<u32> {
        let wide = |words: Vec<u16>| words.into_iter().map(u32::from);
        let p = &self.periods;
        let mut out: Vec<u32> = wide(group_numbers(self)).collect();
        out.push(p.ticks as u32);
        out.extend(wide(p.current.short()).chain(p.current.millis));
        out.push(p.serial);
        out.extend(wide(p.last.short()).chain(p.last.millis));
        out
    }

    /// The state in 234 two-byte numbers: sums of milliseconds and the serial are two each, speeds four, the highest first.
    pub fn words(&self) -> Vec<u16> {
        let p = &self.periods;
        let mut out = group_numbers(self);
        out.push(p.ticks);
        out.extend(p.current.words());
        out.extend(halves(p.serial));
        out.extend(p.last.words());
        out.extend(p.speeds.doubles().into_iter().flat_map(Double::words));
        out
    }
}
