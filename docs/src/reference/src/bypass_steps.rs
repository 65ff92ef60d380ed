//! Pieces of the stored runs with a bus bypass: a site, states and inputs; and steps, behind which stands what the page gives for them,
//! worked out by hand: the lanes' lamps and the bypass. The rules are held to it.

use crate::call_run::{from_power_up, Op};
use crate::site::{bytes, Site};
use crate::text;
use crate::tick::{power_up, tick, Input, KeptLane, State};
use crate::tick_cases::{fresh, in_demand, with_timings};
use crate::wanted::Command;

pub const METER: Command = Command { kind: 3, rate: 900, table: 0 };

/// Minimum green 12, maximum 24, yellow 14, minimum red 16, V 2, and the shortest startup. At 900 the cycle is 80.
pub fn site(n: u16, mode: u16, lane: u16, timeout: u16) -> Site {
    let startup = [(7, 10), (8, 10), (9, 10), (10, 10), (11, 10), (13, 1)];
    let times = [(2, 2), (3, 12), (4, 24), (5, 14), (6, 16)];
    let others = [(0, n), (1, mode), (14, 2), (15, lane), (16, timeout)];
    with_timings(&[&startup[..], &times, &others].concat())
}

/// The tick from power-up that enters metering there, with metering wanted.
pub const ENTERS: u16 = 92;

/// Metering, with lanes of these colours and ages and their last greens long ago.
pub fn metering(lanes: &[(u16, u16)]) -> State {
    let mut state = fresh(lanes.len(), 7, 200);
    for (kept, (colour, age)) in state.lanes.iter_mut().zip(lanes) {
        *kept = KeptLane { colour: *colour, age: *age, counter: 300, passages: 1 };
    }
    state.offset = 290;
    state
}

/// The same, the group's last green being so many ticks old.
pub fn since(offset: u16, lanes: &[(u16, u16)]) -> State {
    State { offset, ..metering(lanes) }
}

pub const RED: u16 = 1;
pub const YELLOW: u16 = 2;
pub const LIT: u16 = 3;

// Inputs: all lanes in demand, and metering wanted.

pub fn plain() -> Input {
    in_demand(METER)
}

pub fn bus() -> Input {
    Input { bypass: 1, ..plain() }
}

pub fn truck() -> Input {
    Input { preemption: 1, ..plain() }
}

pub fn bus_and_truck() -> Input {
    Input { preemption: 1, ..bus() }
}

pub fn wishing(wish: Command, input: Input) -> Input {
    Input { commands: [wish, input.commands[1]], ..input }
}

/// With a vehicle past this lane.
pub fn past(lane: u16, input: Input) -> Input {
    let mut passage = [0; 4];
    passage[lane as usize - 1] = 1;
    Input { passage, ..input }
}

/// With demand on this lane alone.
pub fn only(lane: u16, input: Input) -> Input {
    let mut demand = [0; 4];
    demand[lane as usize - 1] = 1;
    Input { demand, ..input }
}

// Steps.

/// So many ticks with one input, and what stands then, in mutual exclusion and in fractional offset.
#[derive(Clone, Copy)]
pub struct Step {
    count: u16,
    input: Input,
    left: [&'static str; 2],
}

/// The same in both modes.
pub fn step(count: u16, input: Input, left: &'static str) -> Step {
    Step { count, input, left: [left, left] }
}

pub fn by_mode(count: u16, input: Input, left: [&'static str; 2]) -> Step {
    Step { count, input, left }
}

/// The operations of the steps, behind those that give the state; the rules are held to what should stand behind each.
pub fn held(site: &Site, mut state: State, before: &[Op], steps: &[Step]) -> Vec<Op> {
    let (n, mode) = (site.timings[0] as usize, site.timings[1] as usize);
    let (mut ops, began) = (before.to_vec(), state);
    for (i, step) in steps.iter().enumerate() {
        let mut left = String::new();
        for _ in 0..step.count {
            let answer = tick(Some(site), &state, &step.input);
            let lamps = text::lamps(&answer.indications, n);
            left = format!("{} {}", &lamps[..n], answer.bypass.word());
            state = answer.state;
        }
        assert_eq!(left, step.left[mode], "step {} from {:?} at {:?}", i + 1, began.lanes, site.timings);
        ops.push(Op::Ticks(step.count, step.input));
    }
    ops
}

/// From a state.
pub fn from(site: &Site, state: State, steps: &[Step]) -> Vec<Op> {
    held(site, state, &[Op::State(state)], steps)
}

pub fn from_start(site: &Site, steps: &[Step]) -> Vec<Op> {
    held(site, power_up(Some(site)).1, &[Op::PowerUp], steps)
}

pub fn case(site: &Site, ops: &[Op]) -> Vec<u8> {
    from_power_up(&bytes(site), ops)
}

/// A case for each service mode.
pub fn in_both(site: impl Fn(u16) -> Site, ops: impl Fn(&Site) -> Vec<Op>) -> Vec<Vec<u8>> {
    [0, 1].into_iter().map(|mode| site(mode)).map(|site| case(&site, &ops(&site))).collect()
}
