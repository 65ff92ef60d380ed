//! The bus bypass: when it begins and when it ends.

/// The timer stops here.
const LONGEST: u16 = 2550;

#[derive(Default)]
pub struct Bypass {
    /// One waits or runs.
    kept: bool,
    /// The present call has brought one, and brings no other.
    mark: bool,
    /// Ticks since the first of the one that is kept.
    timer: u16,
}

/// What decides on the bypass at a tick, its group interval being settled.
pub struct Moment {
    pub call: bool,
    pub metering: bool,
    /// The priority lane was green as the tick began, and had a passage.
    pub passed: bool,
    pub timeout: Option<u16>,
}

/// What the bypass is at a tick.
#[derive(Clone, Copy, PartialEq)]
pub enum Phase {
    Absent,
    /// It waits or runs, from its first tick on.
    Kept,
    /// It ends at this tick.
    Ended,
}

impl Bypass {
    /// One tick of a site with a priority lane.
    pub fn tick(&mut self, now: Moment) -> Phase {
        let phase = if self.kept {
            self.timer = LONGEST.min(self.timer + 1);
            let timed_out = now.timeout.is_some_and(|timeout| self.timer >= timeout);
            if now.passed || !now.call || timed_out || !now.metering {
                Phase::Ended
            } else {
                Phase::Kept
            }
        } else if now.call && now.metering && !self.mark {
            Phase::Kept
        } else {
            Phase::Absent
        };
        self.mark = now.call && (self.mark || phase == Phase::Kept);
        self.kept = phase == Phase::Kept;
        if !self.kept {
            self.timer = 0;
        }
        phase
    }
}
