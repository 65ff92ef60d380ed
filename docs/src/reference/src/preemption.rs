//! A preemption call at a controller that runs from power-up: how soon it finds the group in dark or in pre-metering green, and that the
//! group is held there.

use crate::site::Site;
use crate::tally::Tally;
use crate::timings::Timings;

/// Within so many accepted ticks of a call the group is in interval 1 or 2.
pub fn bound(site: &Site) -> u32 {
    let t = Timings::of(site);
    // from the tick that enters the warning up to metering, and the tick that closes; from a release until the lane is red again
    let startup = t.warning + t.startup_green + t.startup_yellow + t.startup_red + 1;
    let lane = t.maximum_green + t.yellow;
    // the tick that finds all lanes red, and shutdown red
    (startup.max(lane) + 1 + t.shutdown_red) as u32
}

/// The calls of a run.
#[derive(Default)]
pub struct Watch {
    /// Accepted ticks of the present call.
    ticks: u32,
    /// The interval in which it holds the group.
    held: Option<u16>,
    calls: u64,
    held_calls: u64,
    longest: u64,
}

impl Watch {
    /// No call is on.
    pub fn end_call(&mut self) {
        (self.ticks, self.held) = (0, None);
    }

    /// An accepted tick with this sample, which leaves the group in this interval.
    pub fn tick(&mut self, site: &Site, preemption: u16, interval: u16) {
        if preemption == 0 {
            return self.end_call();
        }
        self.ticks += 1;
        self.calls += (self.ticks == 1) as u64;
        let bound = bound(site);
        match self.held {
            Some(held) => assert_eq!(interval, held, "a preemption call loses the interval in which it holds the group"),
            None if interval == 1 || interval == 2 => {
                self.held = Some(interval);
                self.held_calls += 1;
                self.longest += (self.ticks == bound) as u64;
            }
            None => assert!(self.ticks < bound, "a preemption call of {bound} ticks has the group in interval {interval}"),
        }
    }

    pub fn count(&self, tally: &mut Tally) {
        tally.count("preemption calls", self.calls);
        tally.count("preemption calls that hold dark or green", self.held_calls);
        tally.count("preemption calls that hold it with no tick to spare", self.longest);
    }
}
