//! The calls of random runs, the fire service's and those of buses: in every other run they come, last for a while and go. And runs in
//! which a bus comes about where it has to wait longest.

use crate::bypass_watch::bound;
use crate::call_run::{from_power_up, Op};
use crate::random::Random;
use crate::site::bytes;
use crate::tick::Input;
use crate::tick_cases::{fixed, in_demand, quiet, short_timings, with_timings, Setting};

pub struct Calls {
    /// Percent, at each step.
    coming: u64,
    /// From the shortest to the longest of each kind, one of which is drawn.
    lengths: Vec<(u16, u16)>,
    /// Ticks of the present call that are still to come.
    left: u16,
}

impl Calls {
    fn new(r: &mut Random, coming: u64, lengths: Vec<(u16, u16)>) -> Calls {
        Calls { coming: r.pick(&[0, coming]), lengths, left: 0 }
    }

    /// Of the fire service: a tick, a moment, up to some hundred ticks, or longer than a pre-metering green may last.
    pub fn trucks(r: &mut Random, s: &Setting, coming: u64) -> Calls {
        let longest = 600 * s.site.timings[12];
        let (tick, moment, some) = ((1, 1), (2, 30), (31, 400));
        Calls::new(r, coming, vec![tick, tick, moment, moment, moment, some, some, some, some, (longest + 1, longest + 300)])
    }

    /// Of buses: a tick, a moment, until the lane may be green, some hundred ticks, or longer than the timer counts.
    pub fn buses(r: &mut Random, coming: u64) -> Calls {
        let mut lengths = [[(1, 1), (2, 20), (20, 60), (40, 120)]; 12].concat();
        lengths.extend([(100, 500), (100, 500), (2400, 2700)]);
        Calls::new(r, coming, lengths)
    }

    /// The sample of the next ticks, and for how many of so many it stands. Where no call comes it is at times a single tick, which parts
    /// two calls.
    pub fn next(&mut self, r: &mut Random, count: u16) -> (u16, u16) {
        if self.left == 0 && r.percent(self.coming) {
            let (short, long) = r.pick(&self.lengths);
            self.left = r.number(short, long);
        }
        match self.left {
            0 if self.coming != 0 && r.percent(10) => (0, 1),
            0 => (0, count),
            left => (1, count.min(left)),
        }
    }

    /// So many ticks with that sample were sent.
    pub fn sent(&mut self, count: u16) {
        self.left = self.left.saturating_sub(count);
    }
}

/// The calls of one run: the samples of the next ticks go into the input; gives for how many of so many they stand.
pub fn next_calls(r: &mut Random, calls: &mut [Calls; 2], count: u16, input: &mut Input) -> u16 {
    let (preemption, count) = calls[0].next(r, count);
    let (bypass, count) = calls[1].next(r, count);
    calls.iter_mut().for_each(|calls| calls.sent(count));
    (input.preemption, input.bypass) = (preemption, bypass);
    count
}

/// A bus about the tick from which its wait is longest: behind the one that releases another lane, or the one that turns the priority lane
/// yellow. It passes or not; the call goes, and may come again.
pub fn aimed(r: &mut Random, k: u16) -> Vec<u8> {
    let mut site = with_timings(&[]);
    site.timings = short_timings(r, k);
    let n = site.timings[0];
    let lane = r.number(1, n);
    let timeout = site.timings[16];
    (site.timings[15], site.timings[16]) = (lane, r.pick(&[0, 0, timeout, 20]));
    let [minimum, maximum, red] = [3, 4, 6].map(|i| site.timings[i]);
    let entered = 50 + 1 + site.timings[13] + site.timings[7..11].iter().sum::<u16>();
    let own = n == 1 || red > minimum;
    let waiting = if own { lane } else { lane % n + 1 };
    let before = entered + red + if own { maximum } else { 0 };

    let mut alone = quiet(fixed(1200));
    alone.demand[waiting as usize - 1] = 1;
    let plain = in_demand(fixed(1200));
    let called = Input { bypass: 1, ..plain };
    let mut passing = called;
    passing.passage[lane as usize - 1] = 1;
    let mut ops = vec![Op::Ticks(before + r.number(0, 2) - 1, alone)];
    ops.push(Op::Ticks(bound(&site) as u16 + r.number(0, 40), called));
    if r.percent(50) {
        ops.push(Op::Ticks(r.number(1, 2), passing));
    }
    ops.extend([Op::Ticks(r.number(1, 30), called), Op::Ticks(r.number(1, 3), plain), Op::Ticks(r.number(1, 60), called)]);
    from_power_up(&bytes(&site), &ops)
}
