//! Random calls with tick records: on a controller that runs from power-up, and from states and sites of any kind; at times with something
//! wrong in them, at the first place, the last, or any.

use crate::call_run::{from_power_up, Op};
use crate::cases;
use crate::random::Random;
use crate::random_cases::{any_decision, any_poll, any_setting, any_state, damage_site, soon_metering, sound_input};
use crate::random_replay::{inputs, metered_inputs};
use crate::record_steps::{records, with_count};
use crate::site::{bytes, UNUSED};
use crate::tick::Input;
use crate::tick_cases::{after, damage_input, samples, Setting};
use crate::wanted::lanes;

/// The most records of a call.
const MOST: u64 = 40;

// What is wrong.

/// A place from 0 of so many: the first, the last, or any.
pub fn place(r: &mut Random, many: usize) -> usize {
    let any = r.from(0, many as u64 - 1) as usize;
    r.pick(&[0, many - 1, any, any])
}

/// A count one too high or too low, one of another section, with its bytes the wrong way round, or any.
pub fn wrong_count(r: &mut Random, s: &Setting, record: &[u8]) -> Vec<u8> {
    let (n, m) = lanes(&s.site);
    let (n, m) = (n as u16, m as u16);
    let section = r.from(1, 5) as usize;
    let count = [5, n, m, 2, 2][section - 1];
    let any = r.number(0, UNUSED);
    with_count(&s.site, record, section, r.pick(&[count + 1, count - 1, count << 8, count + 256, n, m, 0, UNUSED, any]))
}

/// Of so many bytes one, two, all but one, or any that are not all.
pub fn part(r: &mut Random, many: usize) -> usize {
    let any = r.from(1, many as u64 - 1) as usize;
    r.pick(&[1, 2, many - 1, any, any])
}

/// The records end inside one of them, or one lacks some bytes and the next is directly behind.
fn cut(r: &mut Random, records: &mut Vec<Vec<u8>>) {
    let k = place(r, records.len());
    let length = part(r, records[k].len());
    records[k].truncate(length);
    if r.percent(80) {
        records.truncate(k + 1);
    }
}

#[derive(Clone, Copy, PartialEq)]
enum Flaw {
    Number,
    Count,
    Cut,
    Output,
}

/// A call with these ticks, and with so many things wrong.
fn call(r: &mut Random, s: &Setting, mut inputs: Vec<Input>, wrong: usize) -> Op {
    let wide = lanes(&s.site).0 + 1;
    let many = inputs.len();
    let wrong = if many == 0 { 0 } else { wrong };
    let flaws: Vec<Flaw> = (0..wrong).map(|_| r.pick(&[Flaw::Number, Flaw::Number, Flaw::Count, Flaw::Cut, Flaw::Output])).collect();
    if flaws.contains(&Flaw::Number) {
        let k = place(r, many);
        damage_input(r, s, &mut inputs[k]);
    }
    let mut records = records(&s.site, &inputs);
    if flaws.contains(&Flaw::Count) {
        let k = place(r, many);
        records[k] = wrong_count(r, s, &records[k]);
    }
    if flaws.contains(&Flaw::Cut) {
        cut(r, &mut records);
    }
    let size = if flaws.contains(&Flaw::Output) {
        place(r, many) * wide + r.from(0, wide as u64 - 1) as usize
    } else {
        many * wide + r.pick(&[0, 0, 0, 1, wide, 30])
    };
    Op::Records(size as u16, records.concat())
}

// Cases.

/// Something else between two calls, now and then.
fn between(r: &mut Random, s: &Setting, ops: &mut Vec<Op>) {
    match r.from(1, 100) {
        1..=10 => ops.extend([any_poll(r, s), Op::Readings]),
        11..=15 => ops.push(any_decision(r, s)),
        16..=25 => ops.push(Op::Ticks(r.number(1, 5), sound_input(r, s))),
        26..=30 => {
            let inputs = (0..r.from(0, 3)).map(|_| sound_input(r, s)).collect();
            ops.extend([damage_site(r, s), call(r, s, inputs, 1), Op::Repair]);
        }
        31 => ops.push(Op::PowerUp),
        _ => {}
    }
}

/// Calls one behind the other from power-up, into metering.
fn running(r: &mut Random, k: u16) -> Vec<u8> {
    let s = if r.percent(70) { soon_metering(r, k) } else { any_setting(r, k) };
    let many = r.from(250, 450) as usize;
    let inputs = if r.percent(50) { metered_inputs(r, &s, many) } else { inputs(r, &s, many, 0) };
    let (mut left, mut ops) = (&inputs[..], Vec::new());
    while !left.is_empty() {
        let (now, later) = left.split_at((r.from(0, MOST) as usize).min(left.len()));
        between(r, &s, &mut ops);
        let wrong = r.pick(&[0, 0, 0, 0, 1, 2]);
        ops.push(call(r, &s, now.to_vec(), wrong));
        left = later;
    }
    ops.extend([any_poll(r, &s), Op::Readings]);
    from_power_up(&bytes(&s.site), &ops)
}

/// So many ticks, a tenth apart.
fn some_inputs(r: &mut Random, s: &Setting, many: u64) -> Vec<Input> {
    let mut input = sound_input(r, s);
    let mut out = Vec::new();
    for _ in 0..many {
        out.push(input);
        samples(r, s, 6, &mut input);
        input.clock = after(r, s, input.clock, 1);
    }
    out
}

/// From states that no run need reach, at times spoilt, and at sites at times damaged.
fn strange(r: &mut Random, k: u16) -> Vec<u8> {
    let s = any_setting(r, k);
    let mut ops = Vec::new();
    for _ in 0..40 {
        let mut state = any_state(r, &s);
        if r.percent(20) {
            cases::damage_state(r, s.site.timings[0], &mut state);
        }
        ops.push(Op::State(state));
        let damaged = r.percent(15);
        if damaged {
            ops.push(damage_site(r, &s));
        }
        for _ in 0..r.from(1, 2) {
            let many = r.pick(&[0, 1, 2, 3, 3, 5, 8]);
            let inputs = some_inputs(r, &s, many);
            let wrong = r.pick(&[0, 0, 1, 1, 1, 2, 3]);
            ops.push(call(r, &s, inputs, wrong));
        }
        if r.percent(30) {
            ops.push(Op::Readings);
        }
        if damaged {
            ops.push(Op::Repair);
        }
    }
    from_power_up(&bytes(&s.site), &ops)
}

/// So many of each kind.
pub fn cases(r: &mut Random, many: u16) -> Vec<Vec<u8>> {
    (0..many).flat_map(|k| [running(r, 5 * k), strange(r, 5 * k)]).collect()
}
