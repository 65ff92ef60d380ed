//! Pieces of the stored cases of speeds: sites, vehicles and periods; and a case that goes on from operation to operation, where behind
//! them stands what the page gives, worked out by hand: readings, levels and refusals. The rules are held to it.

use crate::call_run::{payload, Op};
use crate::output::untouched;
use crate::periods::{Counts, Sample};
use crate::record_steps::{records, ticks};
use crate::site::{bytes, Site, UNUSED};
use crate::speeds::{Double, LaneSpeeds, Pair, Reading};
use crate::tick::{self, power_up, Input, State};
use crate::tick_cases::{fresh, quiet, with_timings, NONE, RESPONSIVE};
use crate::tick_records::run;

/// Two metered lanes and m mainline lanes, with levels of table 1 that have a speed alone.
pub fn site(m: u16, speeds: &[u16]) -> Site {
    let mut site = with_timings(&[(14, m)]);
    site.levels = speeds.iter().map(|speed| [1, UNUSED, UNUSED, *speed, 900]).collect();
    site
}

// Inputs.

/// All lanes work, under a responsive command; vehicles on lanes from 1, with their times.
pub fn vehicles(timed: &[(usize, u16)]) -> Input {
    let mut input = quiet(RESPONSIVE);
    for (lane, time) in timed {
        input.mainline[lane - 1] = Sample { working: 1, occupied: 10, vehicles: 1, time: *time };
    }
    input
}

pub fn nobody() -> Input {
    vehicles(&[])
}

/// One lane does not work, whatever it says.
pub fn failed(lane: usize, mut input: Input) -> Input {
    input.mainline[lane - 1].working = 0;
    input
}

// States.

/// A completed period of a site of two metered lanes: of each mainline lane its timed vehicles and their milliseconds.
pub fn completed(lanes: &[(u16, u32)]) -> State {
    let mut state = fresh(2, 7, 40);
    state.periods.serial = 3;
    state.periods.last = counts(300, lanes);
    state
}

/// Counts of so many ticks at which all lanes worked.
pub fn counts(ticks: u16, lanes: &[(u16, u32)]) -> Counts {
    let mut out = Counts::default();
    for (j, (timed, millis)) in lanes.iter().enumerate() {
        (out.worked[j], out.vehicles[j], out.timed[j], out.millis[j]) = (ticks, *timed, *timed, *millis);
    }
    out
}

// Speeds.

/// A whole number as a double, by its bits.
pub fn whole(n: u64) -> Double {
    let exponent = n.ilog2() as u64;
    Double(((1022 + exponent) << 52) + (n << (52 - exponent)))
}

fn pair(latest: Double, slowest: Double) -> Pair {
    Pair { latest, slowest }
}

pub fn measured(speed: Double, latest: Double, slowest: Double) -> LaneSpeeds {
    LaneSpeeds { reading: Reading::Measured(speed), pair: pair(latest, slowest) }
}

/// Every vehicle at one speed.
pub fn all_at(speed: Double) -> LaneSpeeds {
    measured(speed, speed, speed)
}

pub fn carried(speed: Double) -> LaneSpeeds {
    LaneSpeeds { reading: Reading::CarriedOver(speed), pair: Pair::default() }
}

pub const ABSENT: LaneSpeeds = LaneSpeeds { reading: Reading::Absent, pair: Pair { latest: Double::ZERO, slowest: Double::ZERO } };

// Cases.

pub struct Case {
    given: Site,
    /// None where no file could give the present record.
    site: Option<Site>,
    state: State,
    ops: Vec<Op>,
}

impl Case {
    /// From power-up.
    pub fn new(site: &Site) -> Case {
        let mut case = Case { given: site.clone(), site: Some(site.clone()), state: State::default(), ops: Vec::new() };
        case.power_up();
        case
    }

    pub fn power_up(&mut self) {
        self.state = power_up(self.site.as_ref()).1;
        self.ops.push(Op::PowerUp);
    }

    /// Any numbers; every NaN comes as the same.
    pub fn state(&mut self, state: State) {
        self.ops.push(Op::State(state));
        self.state = state;
        for j in 0..6 {
            self.state.periods.speeds.of_lane_mut(j).into_iter().for_each(|speed| *speed = Double::of_bits(speed.0));
        }
    }

    pub fn kept(&self) -> State {
        self.state
    }

    /// Other numbers in the record; none where no file could give it.
    pub fn change(&mut self, op: Op, site: Option<Site>) {
        self.site = site;
        self.ops.push(op);
    }

    pub fn repair(&mut self) {
        self.change(Op::Repair, Some(self.given.clone()));
    }

    /// So many ticks, each with that refusal.
    pub fn ticks_refused(&mut self, count: u16, input: Input, refusal: u8) {
        self.ops.push(Op::Ticks(count, input));
        for _ in 0..count {
            let answer = tick::tick(self.site.as_ref(), &self.state, &input);
            assert_eq!(answer.refusal, refusal, "operation {}", self.ops.len());
            if refusal != 0 {
                assert_eq!(answer.state.words(), self.state.words(), "a refused tick changes the state");
            }
            self.state = answer.state;
        }
    }

    pub fn ticks(&mut self, count: u16, input: Input) {
        self.ticks_refused(count, input, 0);
    }

    /// The same ticks as records of one call.
    pub fn records(&mut self, count: u16, input: Input) {
        let site = self.site.as_ref().expect("a site");
        let records = records(site, &ticks(&[(count, input)])).concat();
        let size = count * 3;
        let ran = run(Some(site), &self.state, &records, &mut untouched(size));
        assert_eq!((ran.refusal, ran.accepted), (0, count as usize));
        self.state = ran.state;
        self.ops.push(Op::Records(size, records));
    }

    /// A period with one input at its first ticks, so many, and nobody at the others.
    pub fn period(&mut self, count: u16, input: Input) {
        self.ticks(count, input);
        self.ticks(300 - count, nobody());
    }

    /// The readings of the lanes that there are; beyond them all is absent and 0.
    pub fn readings(&mut self, lanes: &[LaneSpeeds]) {
        let mut wanted = [ABSENT; 6];
        wanted[..lanes.len()].copy_from_slice(lanes);
        self.ops.push(Op::Readings);
        let given = tick::readings(self.site.as_ref(), &self.state);
        assert_eq!(given, Ok(wanted), "operation {} at {:?}", self.ops.len(), self.given.timings);
    }

    pub fn refused(&mut self, refusal: u8) {
        self.ops.push(Op::Readings);
        let given = tick::readings(self.site.as_ref(), &self.state);
        assert_eq!(given, Err(refusal), "operation {}", self.ops.len());
    }

    /// The level that a responsive command finds, 0 for none.
    pub fn level(&mut self, level: usize) {
        let clock = nobody().clock;
        self.ops.push(Op::Decide(clock, [RESPONSIVE, NONE]));
        let decision = tick::decision(self.site.as_ref(), &self.state, clock, [RESPONSIVE, NONE]).expect("a decision");
        assert_eq!(decision.level, level, "operation {}: {:?}", self.ops.len(), self.state.periods.last);
    }

    pub fn op(&mut self, op: Op) {
        self.ops.push(op);
    }

    pub fn payload(&self) -> Vec<u8> {
        payload(&bytes(&self.given), &self.ops)
    }
}
