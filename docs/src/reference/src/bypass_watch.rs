//! The bus bypass watched from outside: at a controller that runs from power-up, how soon the priority lane is green, and that it stays
//! green up to an end; and of every accepted tick, what it did to a bypass.

use crate::bypass::Phase;
use crate::site::Site;
use crate::tally::Tally;
use crate::tick::{Answer, Input, State};
use crate::timings::Timings;

const YELLOW: u16 = 2;
const GREEN: u16 = 3;

/// Within so many accepted ticks, its first counted, a bypass has the priority lane green, if nothing ends it before.
pub fn bound(site: &Site) -> u32 {
    let t = Timings::of(site);
    // of another lane that was released, or of the priority lane that turned yellow, right before the first tick
    let other = if t.lanes > 1 { t.minimum_green } else { 0 };
    (t.yellow + other.max(t.minimum_red)) as u32
}

/// An accepted tick, and the state that came.
#[derive(Clone, Copy)]
pub struct Tick<'a> {
    pub site: &'a Site,
    pub before: &'a State,
    pub input: &'a Input,
    pub answer: &'a Answer,
}

// The promise.

/// The bypasses of a run. It looks at the samples, the lamps, the interval and the lane released, and keeps its own book of the bypass.
#[derive(Default)]
struct Promise {
    /// Accepted ticks of the bypass that is on, its first counted.
    ticks: u32,
    /// The priority lane is green under it.
    green: bool,
    /// The call that is on has brought one.
    served: bool,
    /// The priority lane's lamp after the tick before.
    lamp: u16,
}

impl Promise {
    fn tick(&mut self, now: Tick, tally: &mut Tally) {
        let lane = now.site.timings[15] as usize;
        let call = now.input.bypass == 1;
        if lane != 0 {
            let metering = now.answer.state.interval == 7;
            if self.ticks != 0 {
                self.go_on(now, lane, call && metering, tally);
            } else if call && metering && !self.served {
                self.begin(now, lane, tally);
            }
            self.lamp = now.answer.indications.colours[lane - 1];
        }
        self.served = call && (self.served || self.ticks != 0);
        let phase = match (self.ticks, self.green) {
            (0, _) => Phase::None,
            (_, false) => Phase::Waits,
            (_, true) => Phase::Runs,
        };
        assert_eq!(now.answer.bypass, phase, "a bypass that should be otherwise");
    }

    fn begin(&mut self, now: Tick, lane: usize, tally: &mut Tally) {
        tally.count("bypasses watched", 1);
        (self.ticks, self.green, self.served) = (1, false, true);
        if self.lamp == GREEN {
            assert_eq!((now.answer.indications.colours[lane - 1], now.answer.released), (GREEN, 0), "a green that a call finds ends");
            self.green = true;
        } else {
            self.wait(now, lane, tally);
        }
    }

    /// The timer is the number of ticks before this one.
    fn go_on(&mut self, now: Tick, lane: usize, wanted: bool, tally: &mut Tally) {
        let timeout = 10 * now.site.timings[16] as u32;
        let passed = self.green && now.input.passage[lane - 1] == 1;
        if !wanted || passed || (timeout != 0 && self.ticks >= timeout) {
            let lamp = now.answer.indications.colours[lane - 1];
            assert!(!self.green || lamp == YELLOW, "a bypass that ends leaves its lane green");
            (self.ticks, self.green) = (0, false);
            return;
        }
        self.ticks += 1;
        if self.green {
            let kept = (now.answer.indications.colours[lane - 1], now.answer.released);
            assert_eq!(kept, (GREEN, 0), "a bypass loses its green, or another lane is released");
        } else {
            self.wait(now, lane, tally);
        }
    }

    fn wait(&mut self, now: Tick, lane: usize, tally: &mut Tally) {
        let bound = bound(now.site);
        if now.answer.released == 0 {
            assert!(self.ticks < bound, "a bypass waits {bound} ticks");
            return;
        }
        assert_eq!(now.answer.released, lane, "another lane is released while a bypass waits");
        self.green = true;
        if self.ticks == bound {
            let t = Timings::of(now.site);
            let larger = match t.minimum_green.cmp(&t.minimum_red) {
                std::cmp::Ordering::Greater => "minimum green larger",
                std::cmp::Ordering::Less => "minimum red larger",
                std::cmp::Ordering::Equal => "minimum green and red alike",
            };
            tally.count(&format!("bypasses green with no tick to spare, {larger}"), 1);
        }
    }
}

// What a tick did to a bypass, from any state.

fn timeout_name(seconds: u16) -> String {
    match seconds {
        0 | 1 | 2 | 255 => seconds.to_string(),
        _ => "of another length".to_string(),
    }
}

fn count_begin(now: Tick, tally: &mut Tally) {
    let [lane, seconds] = [now.site.timings[15], now.site.timings[16]];
    let mode = ["mutual exclusion", "fractional offset"][now.site.timings[1] as usize];
    tally.count("bypasses begun", 1);
    tally.count(&format!("bypasses begun with priority lane {lane}"), 1);
    tally.count(&format!("bypasses begun in {mode}"), 1);
    tally.count(&format!("bypasses begun with timeout {}", timeout_name(seconds)), 1);
    tally.count("bypasses begun at the tick that enters metering", (now.before.interval != 7) as u64);
}

/// Those of its ends that hold at this tick; where there are several it counts as such.
fn count_end(now: Tick, lane: usize, green: bool, tally: &mut Tally) {
    let timeout = 10 * now.site.timings[16];
    let ends = [
        ("a passage", green && now.input.passage[lane - 1] == 1),
        ("the call's end", now.input.bypass == 0),
        ("the timeout", timeout != 0 && now.before.bypass.timer + 1 >= timeout),
        ("closing", now.answer.state.interval != 7),
    ];
    let held: Vec<&str> = ends.into_iter().filter(|(_, holds)| *holds).map(|(name, _)| name).collect();
    let why = match held[..] {
        [] => unreachable!("a bypass ends for no reason"),
        [one] => one,
        _ => "several at once",
    };
    tally.count(&format!("bypasses ended by {why} while {}", if green { "running" } else { "waiting" }), 1);
    let resumes = now.answer.released != 0 && now.answer.released != lane;
    tally.count("bypasses ended at a tick that releases another lane", resumes as u64);
}

/// Greens of other lanes that end at the minimum, and would have gone on without the bypass.
fn cut_greens(now: Tick, lane: usize) -> usize {
    let t = Timings::of(now.site);
    let cut = |i: &usize| {
        let (before, after) = (now.before.lanes[*i], now.answer.state.lanes[*i]);
        let ended = before.colour == GREEN && after.colour == YELLOW;
        i + 1 != lane && ended && before.age + 1 < t.maximum_green && after.passages < t.vehicles_per_green
    };
    (0..t.lanes).filter(cut).count()
}

fn count_kept(now: Tick, lane: usize, green: bool, tally: &mut Tally) {
    let (state, passage) = (&now.answer.state, now.input.passage[lane - 1] as u64);
    tally.count(&format!("ticks with a bypass {}", if now.answer.bypass == Phase::Runs { "running" } else { "waiting" }), 1);
    tally.count("greens of other lanes that a bypass ends early", cut_greens(now, lane) as u64);
    if now.answer.released != 0 {
        tally.count("bypasses released", 1);
        tally.count("bypasses released at a tick with a passage", passage);
    }
    if green && !now.before.bypass.kept {
        tally.count("bypasses found green", 1);
        tally.count("bypasses found green at a tick with a passage", passage);
    }
    let kept = &state.lanes[lane - 1];
    let beyond = kept.colour == GREEN && kept.age > now.site.timings[4];
    tally.count("ticks with a bypass running beyond the maximum green", beyond as u64);
    tally.count("ticks with the bypass timer at its end", (state.bypass.timer == 2550) as u64);
}

/// A call that brings no bypass, and why.
fn count_idle_call(now: Tick, lane: usize, tally: &mut Tally) {
    let why = match lane {
        0 => "with priority lane 0",
        _ if now.before.bypass.mark => "behind another",
        _ => "outside metering",
    };
    tally.count(&format!("ticks whose bus call brings no bypass, {why}"), 1);
}

fn count_tick(now: Tick, tally: &mut Tally) {
    let lane = now.site.timings[15] as usize;
    let (before, after) = (now.before.bypass, now.answer.state.bypass);
    let green = lane != 0 && now.before.lanes[lane - 1].colour == GREEN;
    match (before.kept, after.kept) {
        (false, false) if now.input.bypass == 1 => count_idle_call(now, lane, tally),
        (false, false) => {}
        (true, false) => count_end(now, lane, green, tally),
        (kept, true) => {
            if !kept {
                count_begin(now, tally);
            }
            count_kept(now, lane, green, tally);
        }
    }
}

// Both.

#[derive(Default)]
pub struct Watch {
    promise: Promise,
    tally: Tally,
    /// Accepted ticks, and those with a call.
    ticks: u64,
    called: u64,
}

impl Watch {
    pub fn power_up(&mut self) {
        self.promise = Promise::default();
    }

    /// An accepted tick; of a run from power-up, the promise too.
    pub fn tick(&mut self, now: Tick, powered: bool) {
        self.ticks += 1;
        self.called += now.input.bypass as u64;
        if powered {
            self.promise.tick(now, &mut self.tally);
        }
        count_tick(now, &mut self.tally);
    }

    pub fn count(&self, tally: &mut Tally) {
        tally.add(&self.tally);
        tally.count("ticks accepted with a bus call", self.called);
        tally.count("runs", (self.ticks != 0) as u64);
        tally.count("runs with bus calls", (self.called != 0) as u64);
    }
}
