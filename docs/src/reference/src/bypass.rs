//! The bus bypass of document 02: when it begins and when it ends.

use crate::timings::Timings;

/// The timer stops here.
pub const LONGEST_TIMER: u16 = 2550;

#[derive(Clone, Copy, Debug, Default, PartialEq)]
pub struct Bypass {
    /// One waits or runs.
    pub kept: bool,
    /// The call that is on has brought one: it brings no other.
    pub mark: bool,
    /// Accepted ticks since the first of the one that is kept.
    pub timer: u16,
}

/// What a tick brings to the bypass, once its group interval is settled.
#[derive(Clone, Copy, Debug)]
pub struct Moment {
    /// The call is on.
    pub call: bool,
    /// The group is in metering.
    pub metering: bool,
    /// The priority lane was green as the tick began.
    pub green: bool,
    /// A passage on the priority lane.
    pub passage: bool,
}

/// What becomes of the bypass at a tick.
#[derive(Clone, Copy, Debug, PartialEq)]
pub enum Turn {
    /// There is none, and none ends.
    Absent,
    /// It begins or goes on.
    Kept,
    /// It ends at this tick.
    Ended,
}

/// A bypass as a tick leaves it.
#[derive(Clone, Copy, Debug, PartialEq)]
pub enum Phase {
    None,
    Waits,
    Runs,
}

impl Phase {
    pub fn word(self) -> &'static str {
        match self {
            Phase::None => "none",
            Phase::Waits => "waits",
            Phase::Runs => "runs",
        }
    }
}

impl Bypass {
    /// One tick: the bypass ends or goes on, or one begins; then the mark.
    pub fn tick(&mut self, t: &Timings, now: Moment) -> Turn {
        let turn = if self.kept {
            self.timer = LONGEST_TIMER.min(self.timer + 1);
            if self.ends(t, now) {
                Turn::Ended
            } else {
                Turn::Kept
            }
        } else if now.call && now.metering && !self.mark && t.priority_lane != 0 {
            Turn::Kept
        } else {
            Turn::Absent
        };
        // it stands from the first tick of a bypass on, until the call goes
        self.mark = now.call && (self.mark || turn != Turn::Absent);
        self.kept = turn == Turn::Kept;
        if !self.kept {
            self.timer = 0;
        }
        turn
    }

    /// At the first passage while green under it, when the call goes, at the timeout, or at closing. The tick that releases the lane began
    /// with it red, and that of a call that finds it green began without a bypass: their passages do not count.
    fn ends(&self, t: &Timings, now: Moment) -> bool {
        let timeout = t.bypass_timeout != 0 && self.timer >= t.bypass_timeout;
        (now.green && now.passage) || !now.call || timeout || !now.metering
    }

    pub fn phase(&self, priority_green: bool) -> Phase {
        match (self.kept, priority_green) {
            (false, _) => Phase::None,
            (true, false) => Phase::Waits,
            (true, true) => Phase::Runs,
        }
    }

    /// 13, once the group is known to be in metering or not, and the site to have a priority lane or not.
    pub fn spoilt(&self, metering: bool, priority_lane: u16) -> bool {
        let misplaced = self.kept && (!metering || priority_lane == 0);
        misplaced || self.timer > LONGEST_TIMER || (self.timer != 0 && !self.kept)
    }
}
