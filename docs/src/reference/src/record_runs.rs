//! Stored runs in tick records, at sites of every number of lanes: the same ticks in one call, in two calls one behind the other, and one
//! by one. What they give is the same, wherever the calls part; the rules are held to it.

use crate::bypass::Phase;
use crate::bypass_steps::past;
use crate::call_run::{payload, Op};
use crate::output::untouched;
use crate::periods::Sample;
use crate::record_steps::{records, site, ticks};
use crate::site::{bytes, Site};
use crate::tick::{power_up, tick, Answer, Input, State};
use crate::tick_cases::{fixed, fresh, in_demand, GREEN, NONE, POLL, RESPONSIVE};
use crate::tick_records::run;
use crate::wanted::{lanes, Command};

// Ticks.

type Step = (u16, Input);

/// Metering wanted and all lanes in demand; every lane's samples differ.
fn meter() -> Input {
    let mut input = in_demand(fixed(1800));
    for (sample, k) in input.mainline.iter_mut().zip(1..) {
        *sample = Sample { working: (k != 5) as u16, occupied: 7 * k, vehicles: (k != 4) as u16, time: 100 * k };
    }
    input
}

fn wishing(manual: Command, communications: Command) -> Input {
    Input { commands: [manual, communications], ..meter() }
}

fn bus(input: Input) -> Input {
    Input { bypass: 1, ..input }
}

fn truck(input: Input) -> Input {
    Input { preemption: 1, ..input }
}

/// From dark through the startup into metering, with the shortest times.
fn startup() -> Vec<Step> {
    vec![(3, wishing(NONE, NONE)), (12, meter()), (20, wishing(NONE, fixed(900))), (10, meter())]
}

/// Metering from its first ticks on: vehicles through the first lane; a bus that waits, is released and passes; its call goes on, under
/// that command, goes, and comes again; a fire truck closes, and is held in green; then green, and dark.
fn metered(n: u16, manual: Command) -> Vec<Step> {
    vec![
        (21, meter()),
        (2, past(1, meter())),
        (3, wishing(NONE, fixed(1500))),
        (25, bus(meter())),
        (1, past(n, bus(meter()))),
        (2, bus(wishing(manual, GREEN))),
        (8, wishing(fixed(1600), NONE)),
        (3, bus(meter())),
        (1, truck(bus(meter()))),
        (2, past(1, truck(meter()))),
        (31, truck(meter())),
        (2, wishing(GREEN, NONE)),
        (2, wishing(NONE, NONE)),
    ]
}

/// The clock goes on from step to step.
fn clocked(mut steps: Vec<Step>) -> Vec<Step> {
    let mut tenth = 0;
    for (count, input) in &mut steps {
        input.clock.tenth += tenth;
        tenth += *count as u32;
    }
    steps
}

// What is the same.

/// What ticks give, one by one: the state and the bytes.
fn one_by_one(site: &Site, state: State, inputs: &[Input]) -> (State, Vec<u8>, Vec<Answer>) {
    let (mut state, mut out, mut answers) = (state, Vec::new(), Vec::new());
    for input in inputs {
        let answer = tick(Some(site), &state, input);
        assert_eq!(answer.refusal, 0, "a tick of a run is refused");
        state = answer.state;
        out.extend(answer.indications.colours[..lanes(site).0].iter().map(|colour| *colour as u8));
        out.push(answer.indications.sign as u8);
        answers.push(answer);
    }
    (state, out, answers)
}

/// The call in one, and in two wherever they part, gives that; the output behind stays untouched.
fn hold(site: &Site, state: State, inputs: &[Input]) -> Vec<Answer> {
    let (after, bytes, answers) = one_by_one(site, state, inputs);
    let records = records(site, inputs);
    let wide = lanes(site).0 + 1;
    for first in 0..=inputs.len() {
        let mut out = untouched(bytes.len() as u16 + 3);
        let (own, rest) = out.split_at_mut(first * wide);
        let one = run(Some(site), &state, &records[..first].concat(), own);
        let two = run(Some(site), &one.state, &records[first..].concat(), rest);
        assert_eq!((one.refusal, one.accepted, two.refusal, two.accepted), (0, first, 0, inputs.len() - first));
        assert_eq!(two.state.words(), after.words());
        assert_eq!(out, [&bytes[..], &untouched(3)].concat());
    }
    answers
}

// Cases.

/// In one call, in two that part behind so many, and one by one; each from the start.
fn three_ways(site: &Site, start: Op, steps: &[Step], first: usize) -> Vec<Op> {
    let inputs = ticks(steps);
    let records = records(site, &inputs);
    let room = |many: usize| (many * (lanes(site).0 + 1)) as u16;
    let one = vec![start.clone(), Op::Records(room(inputs.len()), records.concat()), POLL];
    let parts = [(first, &records[..first]), (inputs.len() - first, &records[first..])];
    let parts = parts.map(|(many, part)| Op::Records(room(many) + 2, part.concat()));
    let single = steps.iter().map(|(count, input)| Op::Ticks(*count, *input)).collect();
    [one, vec![start.clone()], parts.to_vec(), vec![start, POLL], single, vec![POLL]].concat()
}

/// From power-up on, through every interval, and dark again.
fn whole_run() -> Vec<u8> {
    let site = site(2, 1);
    let steps = clocked([vec![(49, wishing(NONE, GREEN))], startup(), metered(2, fixed(1200))].concat());
    let answers = hold(&site, power_up(Some(&site)).1, &ticks(&steps));
    for interval in 0..10 {
        assert!(answers.iter().any(|a| a.state.interval == interval), "interval {interval} is not met");
    }
    assert_eq!(answers.last().map(|a| a.state.interval), Some(1));
    for released in 0..=2 {
        assert!(answers.iter().any(|a| a.released == released), "lane {released} is not released");
    }
    for phase in [Phase::None, Phase::Waits, Phase::Runs] {
        assert!(answers.iter().any(|a| a.bypass == phase), "no bypass {}", phase.word());
    }
    payload(&bytes(&site), &three_ways(&site, Op::PowerUp, &steps, 130))
}

/// From startup red on, over a period's end, up to the fire truck.
fn metered_run(n: u16, m: u16, first: usize) -> Vec<u8> {
    let site = site(n, m);
    let mut steps = clocked(metered(n, RESPONSIVE));
    steps.truncate(9);
    let mut state = fresh(n as usize, 6, 7);
    state.periods.ticks = 248;
    let answers = hold(&site, state, &ticks(&steps));
    assert!(answers.iter().any(|a| a.bypass == Phase::Runs));
    assert_eq!(answers.last().map(|a| (a.state.interval, a.state.periods.serial)), Some((8, 1)));
    payload(&bytes(&site), &three_ways(&site, Op::State(state), &steps, first))
}

/// A few ticks into metering and the first release, where every lane's samples go their way.
fn short_run(n: u16, m: u16) -> Vec<u8> {
    let site = site(n, m);
    let steps = clocked(vec![(2, meter()), (14, wishing(NONE, fixed(1200))), (3, past(n, meter()))]);
    let state = fresh(n as usize, 6, 8);
    let answers = hold(&site, state, &ticks(&steps));
    assert!(answers.iter().any(|a| a.released == 1));
    let records = records(&site, &ticks(&steps)).concat();
    let mut ops = vec![Op::State(state), Op::Records(19 * (n + 1), records), POLL, Op::State(state)];
    ops.extend(steps.iter().map(|(count, input)| Op::Ticks(*count, *input)));
    payload(&bytes(&site), &ops)
}

pub fn cases() -> Vec<Vec<u8>> {
    let mut out = vec![whole_run(), metered_run(1, 1, 1), metered_run(4, 6, 45), metered_run(3, 2, 65)];
    out.extend([(1, 6), (1, 3), (2, 6), (2, 4), (3, 1), (3, 6), (4, 1), (4, 2)].map(|(n, m)| short_run(n, m)));
    out
}
