//! The group of lanes: its interval, its lanes in metering, and their release.

use crate::bypass::{Bypass, Moment, Phase};
use crate::lanes::{raised, Colour, GreenEnd, Lane, LONGEST};
use crate::record::Record;
use crate::site::Timings;
use crate::wanted::Wish;

pub const LANES: usize = 4;
const INITIALIZATION: u16 = 50;
/// An interval's age stops here.
const OLDEST: u16 = 36000;

#[derive(Clone, Copy, PartialEq)]
enum Interval {
    Initialization,
    /// Pre-metering non-green.
    Dark,
    PremeteringGreen,
    StartupWarning,
    StartupGreen,
    StartupYellow,
    StartupRed,
    Metering,
    Closing,
    ShutdownRed,
}

pub struct Group {
    interval: Interval,
    age: u16,
    lanes: [Lane; LANES],
    /// Ticks since any lane's green began.
    offset: u16,
    /// The lane last released, from 0.
    last: usize,
    bypass: Bypass,
}

impl Group {
    pub fn power_up(timings: &Timings) -> Group {
        Group {
            interval: Interval::Initialization,
            age: 0,
            lanes: [Lane::RESTED; LANES],
            offset: LONGEST,
            last: timings.lanes - 1,
            bypass: Bypass::default(),
        }
    }

    /// One tick: the interval, then the bypass, the lanes and a release.
    pub fn tick(&mut self, timings: &Timings, wish: Wish, record: &Record) {
        self.age = OLDEST.min(self.age + 1);
        let next = self.next_interval(timings, wish, record.preemption);
        if let Some(next) = next {
            self.interval = next;
            self.age = 0;
        }
        let phase = self.tick_bypass(timings, record);
        match (self.interval, wish) {
            (Interval::Metering, _) if next.is_some() => self.rest_lanes(timings),
            (Interval::Metering, Wish::Metering { rate }) => {
                self.tick_lanes(timings, phase, record);
                match timings.priority {
                    Some(priority) if phase == Phase::Kept => self.release_priority(timings, priority),
                    _ => self.release_next(timings, rate, record),
                }
            }
            (Interval::Metering | Interval::Closing, _) => self.tick_lanes(timings, phase, record),
            _ => {}
        }
    }

    // The interval.

    /// The interval that follows at this tick, if one does.
    fn next_interval(&self, timings: &Timings, wish: Wish, preemption: bool) -> Option<Interval> {
        let after = |time: u16, next: Interval| if self.age >= time { Some(next) } else { None };
        match self.interval {
            Interval::Initialization => after(INITIALIZATION, Interval::Dark),
            Interval::Dark | Interval::PremeteringGreen if preemption => None,
            Interval::Dark => match wish {
                Wish::Green | Wish::Metering { .. } => Some(Interval::PremeteringGreen),
                Wish::Dark | Wish::Clear => None,
            },
            Interval::PremeteringGreen => match wish {
                Wish::Metering { .. } => after(timings.minimum_premetering, Interval::StartupWarning),
                Wish::Dark => after(timings.minimum_premetering, Interval::Dark),
                Wish::Clear => after(timings.maximum_premetering, Interval::Dark),
                Wish::Green => None,
            },
            Interval::StartupWarning => after(timings.startup_warning, Interval::StartupGreen),
            Interval::StartupGreen => after(timings.startup_green, Interval::StartupYellow),
            Interval::StartupYellow => after(timings.startup_yellow, Interval::StartupRed),
            Interval::StartupRed => after(timings.startup_red, Interval::Metering),
            Interval::Metering => match wish {
                Wish::Metering { .. } if !preemption => None,
                _ => Some(Interval::Closing),
            },
            Interval::Closing => {
                let all_red = self.lanes[..timings.lanes].iter().all(|lane| lane.colour == Colour::Red);
                if all_red {
                    Some(Interval::ShutdownRed)
                } else {
                    None
                }
            }
            Interval::ShutdownRed => after(timings.shutdown_red, Interval::PremeteringGreen),
        }
    }

    // The lanes in metering and closing.

    /// On entering metering.
    fn rest_lanes(&mut self, timings: &Timings) {
        self.lanes = [Lane::RESTED; LANES];
        self.offset = LONGEST;
        self.last = timings.lanes - 1;
    }

    fn tick_bypass(&mut self, timings: &Timings, record: &Record) -> Phase {
        let Some(priority) = timings.priority else {
            return Phase::Absent;
        };
        self.bypass.tick(Moment {
            call: record.bypass,
            metering: self.interval == Interval::Metering,
            passed: self.lanes[priority].colour == Colour::Green && record.passage[priority],
            timeout: timings.bypass_timeout,
        })
    }

    /// A bypass that is kept holds the priority lane's green and cuts the others; one that ends ends that green.
    fn tick_lanes(&mut self, timings: &Timings, phase: Phase, record: &Record) {
        self.offset = raised(self.offset);
        for (i, lane) in self.lanes[..timings.lanes].iter_mut().enumerate() {
            let green_end = match (phase, timings.priority == Some(i)) {
                (Phase::Absent, _) | (Phase::Ended, false) => GreenEnd::Ordinary,
                (Phase::Kept, false) => GreenEnd::Minimum,
                (Phase::Kept, true) => GreenEnd::Never,
                (Phase::Ended, true) => GreenEnd::Now,
            };
            lane.tick(timings, record.passage[i], green_end);
        }
    }

    // The release.

    /// Under a bypass: the priority lane, once the others are red.
    fn release_priority(&mut self, timings: &Timings, priority: usize) {
        let mut lanes = self.lanes[..timings.lanes].iter().enumerate();
        let others_red = lanes.all(|(i, lane)| i == priority || lane.colour == Colour::Red);
        if others_red && self.lanes[priority].is_rested(timings) {
            self.release(priority);
        }
    }

    /// The first ready lane from the one after the last released.
    fn release_next(&mut self, timings: &Timings, rate: u16, record: &Record) {
        let lanes = &self.lanes[..timings.lanes];
        let cycle = cycle_ticks(timings.vehicles_per_green, rate);
        let possible = if timings.fractional_offset {
            self.offset >= cycle.div_ceil(timings.lanes as u16)
        } else {
            lanes.iter().all(|lane| lane.colour != Colour::Green)
        };
        if !possible {
            return;
        }
        let is_ready = |i: &usize| record.demand[*i] && lanes[*i].is_rested(timings) && lanes[*i].is_past(cycle);
        if let Some(lane) = (self.last + 1..timings.lanes).chain(0..=self.last).find(is_ready) {
            self.release(lane);
        }
    }

    fn release(&mut self, lane: usize) {
        self.lanes[lane].release();
        self.offset = 0;
        self.last = lane;
    }

    // The indications.

    /// A byte for each lane, then the sign's.
    pub fn show(&self, timings: &Timings, shown: &mut [u8]) {
        let (colours, sign) = shown.split_at_mut(timings.lanes);
        match self.interval {
            Interval::Initialization | Interval::Dark => colours.fill(Colour::Dark as u8),
            Interval::PremeteringGreen | Interval::StartupWarning | Interval::StartupGreen => colours.fill(Colour::Green as u8),
            Interval::StartupYellow => colours.fill(Colour::Yellow as u8),
            Interval::StartupRed | Interval::ShutdownRed => colours.fill(Colour::Red as u8),
            Interval::Metering | Interval::Closing => {
                for (colour, lane) in colours.iter_mut().zip(&self.lanes) {
                    *colour = lane.colour as u8;
                }
            }
        }
        let off = matches!(self.interval, Interval::Initialization | Interval::Dark | Interval::PremeteringGreen);
        sign.fill(!off as u8);
    }
}

/// 36000 × V ÷ rate, to the nearest tick, a half going up.
fn cycle_ticks(vehicles_per_green: u8, rate: u16) -> u16 {
    let rate = rate as u32;
    ((72000 * vehicles_per_green as u32 + rate) / (2 * rate)) as u16
}
