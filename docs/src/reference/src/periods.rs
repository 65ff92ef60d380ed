//! The counts of a period, how a tick adds to them, and when they are spoilt.

use crate::speeds::Speeds;

/// A period's ticks.
pub const PERIOD: u16 = 300;

/// One tick's sample of a mainline lane.
#[derive(Clone, Copy, Debug, Default)]
pub struct Sample {
    pub working: u16,
    pub occupied: u16,
    pub vehicles: u16,
    /// Of the vehicle from loop to loop, in milliseconds; 0 for none.
    pub time: u16,
}

impl Sample {
    /// The travel time of a vehicle that was timed, on a lane that works.
    pub fn timed(&self) -> Option<u16> {
        (self.working != 0 && self.vehicles != 0 && self.time != 0).then_some(self.time)
    }
}

#[derive(Clone, Copy, Debug, Default)]
pub struct Counts {
    pub passages: [u16; 4],
    pub greens: [u16; 4],
    pub worked: [u16; 6],
    pub vehicles: [u16; 6],
    pub occupied: [u16; 6],
    /// Vehicles that were timed, and the sum of their milliseconds.
    pub timed: [u16; 6],
    pub millis: [u32; 6],
}

#[derive(Clone, Copy, Debug, Default)]
pub struct Periods {
    pub ticks: u16,
    pub current: Counts,
    pub serial: u32,
    pub last: Counts,
    pub speeds: Speeds,
}

/// A number as two words, high half first.
pub fn halves(n: u32) -> [u16; 2] {
    [(n >> 16) as u16, n as u16]
}

impl Counts {
    /// The 32 counts that are one word each.
    pub fn short(&self) -> Vec<u16> {
        [&self.passages[..], &self.greens, &self.worked, &self.vehicles, &self.occupied, &self.timed].concat()
    }

    /// All counts in 44 words, the sums of milliseconds two each.
    pub fn words(&self) -> Vec<u16> {
        [self.short(), self.millis.into_iter().flat_map(halves).collect()].concat()
    }

    fn metered_spoilt(&self, i: usize, ticks: u16) -> bool {
        self.passages[i] > ticks || self.greens[i] > ticks
    }

    fn mainline_spoilt(&self, j: usize, ticks: u16) -> bool {
        self.worked[j] > ticks
            || self.vehicles[j] > ticks
            || self.occupied[j] as u32 > 100 * ticks as u32
            || self.timed[j] > self.vehicles[j]
            || self.millis[j] < self.timed[j] as u32
            || self.millis[j] > 65535 * self.timed[j] as u32
    }

    fn kept_metered(&self, i: usize) -> bool {
        self.passages[i] != 0 || self.greens[i] != 0
    }

    fn kept_mainline(&self, j: usize) -> bool {
        let kept = [self.worked[j], self.vehicles[j], self.occupied[j], self.timed[j]];
        kept != [0; 4] || self.millis[j] != 0
    }

    /// A count of these ticks out of range, or something kept beyond n or m.
    fn spoilt(&self, ticks: u16, n: usize, m: usize) -> bool {
        (0..n).any(|i| self.metered_spoilt(i, ticks))
            || (0..m).any(|j| self.mainline_spoilt(j, ticks))
            || (n..4).any(|i| self.kept_metered(i))
            || (m..6).any(|j| self.kept_mainline(j))
    }

    /// A lane not working adds nothing; a time without a vehicle is ignored.
    fn add_mainline(&mut self, j: usize, s: &Sample) {
        if s.working == 0 {
            return;
        }
        self.worked[j] += 1;
        self.occupied[j] += s.occupied;
        self.vehicles[j] += s.vehicles;
        if let Some(time) = s.timed() {
            self.timed[j] += 1;
            self.millis[j] += time as u32;
        }
    }

    /// A lane is good if it worked at all 300.
    pub fn good(&self, j: usize) -> bool {
        self.worked[j] == PERIOD
    }
}

impl Periods {
    pub fn spoilt(&self, n: usize, m: usize) -> bool {
        let completed = if self.serial == 0 { 0 } else { PERIOD };
        let counts_spoilt = self.current.spoilt(self.ticks, n, m) || self.last.spoilt(completed, n, m);
        self.ticks >= PERIOD || counts_spoilt || self.speeds.spoilt(m)
    }

    /// The counts of one tick, of the lanes that there are. The 300th closes the period.
    pub fn count(&mut self, passages: &[bool], samples: &[Sample]) {
        for (i, passage) in passages.iter().enumerate() {
            self.current.passages[i] += *passage as u16;
        }
        for (j, sample) in samples.iter().enumerate() {
            self.current.add_mainline(j, sample);
            if let Some(time) = sample.timed() {
                self.speeds.time(j, time);
            }
        }
        self.ticks += 1;
        if self.ticks == PERIOD {
            self.speeds.close(&self.last);
            self.last = std::mem::take(&mut self.current);
            self.serial = self.serial.saturating_add(1);
            self.ticks = 0;
        }
    }

    /// The tick counted last has closed a period.
    pub fn just_closed(&self) -> bool {
        self.ticks == 0 && self.serial != 0
    }

    /// A green begun at the tick counted last enters the period of that tick, even one just closed.
    pub fn green_begun(&mut self, lane: usize) {
        let counts = if self.just_closed() { &mut self.last } else { &mut self.current };
        counts.greens[lane - 1] += 1;
    }
}
