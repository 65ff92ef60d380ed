//! 'Group intervals' of document 01 with the preemption of document 02, and the release of 'Lanes in metering' with its bus bypass.

use crate::bypass::{Bypass, Moment, Phase, Turn};
use crate::lanes::{risen, Colour, GreenEnds, Lane, LONGEST};
use crate::timings::Timings;
use crate::wanted::Wish;

/// An interval's age stops here.
pub const OLDEST: u16 = 36000;
const INITIALIZATION_TIME: u16 = 50;

/// The ten intervals in the order of their numbers.
#[derive(Clone, Copy, Debug, PartialEq)]
pub enum Interval {
    Initialization,
    PreMeteringDark,
    PreMeteringGreen,
    Warning,
    StartupGreen,
    StartupYellow,
    StartupRed,
    Metering,
    Closing,
    ShutdownRed,
}

use Interval::*;

const INTERVALS: [Interval; 10] = [
    Initialization,
    PreMeteringDark,
    PreMeteringGreen,
    Warning,
    StartupGreen,
    StartupYellow,
    StartupRed,
    Metering,
    Closing,
    ShutdownRed,
];

impl Interval {
    pub fn number(self) -> u16 {
        self as u16
    }

    pub fn of(number: u16) -> Option<Interval> {
        INTERVALS.into_iter().find(|i| i.number() == number)
    }

    /// The lanes' own colours rule here, and their numbers rise.
    pub fn runs_lanes(self) -> bool {
        self == Metering || self == Closing
    }
}

/// What is shown: of each of four lanes 0 dark, 1 red, 2 yellow, 3 green, and whether its lower green is lit.
#[derive(Clone, Copy, Debug, Default, PartialEq)]
pub struct Indications {
    pub colours: [u16; 4],
    pub lower: [bool; 4],
    pub sign: bool,
}

/// The group with its n lanes.
#[derive(Clone, Debug)]
pub struct Group {
    pub interval: Interval,
    pub age: u16,
    pub lanes: Vec<Lane>,
    /// Ticks since the group's last green began.
    pub offset: u16,
    /// The lane last released, from 1.
    pub last: usize,
    pub bypass: Bypass,
}

/// What one tick brings to the group, behind its checks.
pub struct Wanted {
    pub wish: Wish,
    /// A preemption call is on.
    pub preemption: bool,
    /// A bus calls.
    pub bypass: bool,
    /// Of a wish to meter; no other has one.
    pub cycle: Option<u16>,
    /// Of each lane.
    pub demand: Vec<bool>,
    pub passage: Vec<bool>,
}

impl Group {
    /// Initialization at age 0, lanes as on entering metering.
    pub fn power_up(n: usize) -> Group {
        let mut group = Group { interval: Initialization, age: 0, lanes: Vec::new(), offset: 0, last: 0, bypass: Bypass::default() };
        group.reset_lanes(n);
        group
    }

    fn reset_lanes(&mut self, n: usize) {
        self.lanes = vec![Lane::entering(); n];
        self.offset = LONGEST;
        self.last = n;
    }

    /// One tick: group interval, bypass, lane intervals, release. Gives the lane released, from 1.
    pub fn tick(&mut self, t: &Timings, w: &Wanted) -> Option<usize> {
        let entered = self.change_interval(t, w);
        let turn = self.turn_bypass(t, w);
        if entered == Some(Metering) {
            // the numbers rise from the next tick on
            self.reset_lanes(t.lanes);
        } else if self.interval.runs_lanes() {
            self.run_lanes(t, &w.passage, turn);
        }
        let lane = match turn {
            Turn::Kept => self.priority_in_turn(t),
            Turn::Absent | Turn::Ended => self.lane_in_turn(t, w),
        }?;
        self.release(lane);
        Some(lane)
    }

    // Group intervals.

    /// The age rises, then at most one change; gives the interval entered.
    fn change_interval(&mut self, t: &Timings, w: &Wanted) -> Option<Interval> {
        if self.age < OLDEST {
            self.age += 1;
        }
        let next = self.next_interval(t, w)?;
        self.interval = next;
        self.age = 0;
        Some(next)
    }

    /// The interval that follows at this tick, if one does. Where it is asked what is wanted, a call goes before: dark and pre-metering
    /// green are held, and metering closes.
    fn next_interval(&self, t: &Timings, w: &Wanted) -> Option<Interval> {
        match (self.interval, w.preemption) {
            (PreMeteringDark | PreMeteringGreen, true) => None,
            (Metering, true) => Some(Closing),
            (PreMeteringDark | PreMeteringGreen | Metering, false) => self.next_as_wanted(t, w.wish),
            _ => self.next_in_time(t),
        }
    }

    fn up(&self, time: u16, next: Interval) -> Option<Interval> {
        (self.age >= time).then_some(next)
    }

    fn next_as_wanted(&self, t: &Timings, wish: Wish) -> Option<Interval> {
        match (self.interval, wish) {
            (PreMeteringDark, Wish::Green | Wish::Metering(_)) => Some(PreMeteringGreen),
            (PreMeteringGreen, Wish::Metering(_)) => self.up(t.minimum_premetering, Warning),
            (PreMeteringGreen, Wish::Dark) => self.up(t.minimum_premetering, PreMeteringDark),
            (PreMeteringGreen, Wish::Clear) => self.up(t.maximum_premetering, PreMeteringDark),
            (Metering, Wish::Dark | Wish::Green | Wish::Clear) => Some(Closing),
            _ => None,
        }
    }

    /// Of the intervals that run on whatever is wanted.
    fn next_in_time(&self, t: &Timings) -> Option<Interval> {
        match self.interval {
            Initialization => self.up(INITIALIZATION_TIME, PreMeteringDark),
            Warning => self.up(t.warning, StartupGreen),
            StartupGreen => self.up(t.startup_green, StartupYellow),
            StartupYellow => self.up(t.startup_yellow, StartupRed),
            StartupRed => self.up(t.startup_red, Metering),
            // the lanes are still as the tick before left them
            Closing => self.all_red().then_some(ShutdownRed),
            ShutdownRed => self.up(t.shutdown_red, PreMeteringGreen),
            PreMeteringDark | PreMeteringGreen | Metering => unreachable!("it asks what is wanted"),
        }
    }

    fn all_red(&self) -> bool {
        self.lanes.iter().all(|lane| lane.colour == Colour::Red)
    }

    // Bypass.

    /// The lanes are still as the tick before left them.
    fn turn_bypass(&mut self, t: &Timings, w: &Wanted) -> Turn {
        let passage = t.priority_lane != 0 && w.passage[t.priority_lane - 1];
        let moment = Moment { call: w.bypass, metering: self.interval == Metering, green: self.priority_green(t), passage };
        self.bypass.tick(t, moment)
    }

    fn priority_green(&self, t: &Timings) -> bool {
        t.priority_lane != 0 && self.lanes[t.priority_lane - 1].colour == Colour::Green
    }

    /// Waiting or running, as the priority lane is.
    pub fn bypass_phase(&self, t: &Timings) -> Phase {
        self.bypass.phase(self.priority_green(t))
    }

    // Lane intervals.

    fn run_lanes(&mut self, t: &Timings, passage: &[bool], turn: Turn) {
        self.offset = risen(self.offset);
        for (i, (lane, passage)) in self.lanes.iter_mut().zip(passage).enumerate() {
            let ends = match (turn, i + 1 == t.priority_lane) {
                (Turn::Kept, true) => GreenEnds::Held,
                (Turn::Kept, false) => GreenEnds::AtMinimum,
                (Turn::Ended, true) => GreenEnds::Now,
                _ => GreenEnds::AsEver,
            };
            lane.tick(t, *passage, ends);
        }
    }

    // Release.

    /// Under a bypass: the priority lane, red at least the minimum, once the others are red.
    pub fn priority_in_turn(&self, t: &Timings) -> Option<usize> {
        let rested = self.lanes[t.priority_lane - 1].rested(t);
        (rested && self.all_red()).then_some(t.priority_lane)
    }

    /// In metering alone, what the search finds at the tick's one cycle.
    fn lane_in_turn(&self, t: &Timings, w: &Wanted) -> Option<usize> {
        let cycle = w.cycle?;
        if self.interval != Metering {
            return None;
        }
        self.search(t, cycle, &w.demand)
    }

    /// The first ready lane from the one after the last released, if the mode allows one. The cycle is a plain number here, whatever rate
    /// it came from.
    pub fn search(&self, t: &Timings, cycle: u16, demand: &[bool]) -> Option<usize> {
        if !self.mode_allows(t, cycle) {
            return None;
        }
        self.in_turn().find(|lane| self.lanes[lane - 1].ready(t, demand[lane - 1], cycle))
    }

    fn release(&mut self, lane: usize) {
        self.lanes[lane - 1].release();
        self.offset = 0;
        self.last = lane;
    }

    /// The lanes in turn: those after the last released, then those from 1 up to it.
    fn in_turn(&self) -> impl Iterator<Item = usize> {
        (self.last + 1..=self.lanes.len()).chain(1..=self.last)
    }

    /// Mutual exclusion: no lane green. Fractional offset: the lanes' share of a cycle since the last green's start.
    fn mode_allows(&self, t: &Timings, cycle: u16) -> bool {
        if t.fractional_offset {
            self.offset >= cycle.div_ceil(t.lanes as u16)
        } else {
            self.lanes.iter().all(|lane| lane.colour != Colour::Green)
        }
    }

    // Indications.

    pub fn indications(&self) -> Indications {
        let sign_off = matches!(self.interval, Initialization | PreMeteringDark | PreMeteringGreen);
        let mut shown = Indications { sign: !sign_off, ..Indications::default() };
        for (i, lane) in self.lanes.iter().enumerate() {
            let colour = self.shown(lane);
            shown.colours[i] = colour.map_or(0, Colour::number);
            shown.lower[i] = matches!(colour, Some(Colour::Green | Colour::Yellow));
        }
        shown
    }

    /// The colour that a lane shows, none when dark.
    fn shown(&self, lane: &Lane) -> Option<Colour> {
        match self.interval {
            Initialization | PreMeteringDark => None,
            PreMeteringGreen | Warning | StartupGreen => Some(Colour::Green),
            StartupYellow => Some(Colour::Yellow),
            StartupRed | ShutdownRed => Some(Colour::Red),
            Metering | Closing => Some(lane.colour),
        }
    }
}
