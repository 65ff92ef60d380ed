//! Fresh random cases of a seed, in number: long runs, states that no run need reach, spoilt ones, and files, sites and inputs
//! with something out of range. Behind each that is refused comes one that is not. And calls with tick records.

use crate::call_run::{from_power_up, timing, Op};
use crate::cases;
use crate::preemption_cases;
use crate::random::Random;
use crate::random_calls::{self, next_calls, Calls};
use crate::random_records;
use crate::site::{bytes, Site, TIMINGS, UNUSED};
use crate::tick::{Input, State};
use crate::tick_cases::{
    after, command, damage_input, fixed, jump, of_today, quiet, random_run, samples, setting, short_timings, strange_state,
    strange_states, Setting, NONE,
};
use crate::wanted::{lanes, Command};

/// Cases of each kind in one seed.
const RUNS: u16 = 24;
const BUSY: u16 = 8;
const METERED: u16 = 16;
const STRANGE: u16 = 24;
const SPOILT: u16 = 48;
const REFUSED: u16 = 16;
const DAMAGED: u16 = 10;
const AIMED: u16 = 12;
const AIMED_BUSES: u16 = 24;
const RECORDS: u16 = 16;
const DECISIONS: usize = 5000;
const FILES: usize = 5000;
const TIMETABLES: usize = 40;

// Sites.

/// Mostly short times, so that metering is reached soon.
pub fn any_setting(r: &mut Random, k: u16) -> Setting {
    let short = r.percent(75);
    setting(r, |r| if short { short_timings(r, k) } else { cases::timings(r) })
}

/// The shortest startup.
pub fn soon_metering(r: &mut Random, k: u16) -> Setting {
    let mut s = setting(r, |r| short_timings(r, k));
    s.site.timings[7..12].fill(10);
    s.site.timings[13] = 1;
    s
}

/// Mostly a manual one to meter at a high rate; seldom any.
pub fn steady_commands(r: &mut Random, s: &Setting) -> [Command; 2] {
    let manual = if r.from(1, 500) > 1 { fixed(cases::rate_from(r, 900)) } else { command(r, s, 40) };
    [manual, NONE]
}

pub fn any_site(r: &mut Random) -> Site {
    let mut site = any_setting(r, 0).site;
    site.timings = cases::timings(r);
    site
}

// Files.

/// Numbers at an end of some range, and beside one.
pub const EDGES: [u16; 40] = [
    0, 1, 2, 3, 4, 5, 6, 7, 9, 10, 12, 13, 14, 15, 16, 17, 24, 25, 28, 29, 30, 31, 32, 60, 61, 100, 101, 149, 150, 250,
    251, 255, 256, 600, 601, 1439, 1440, 1800, 1801, UNUSED,
];

/// One number moved by one, set to an edge, or to anything.
fn damage_number(r: &mut Random, file: &mut [u8]) {
    if file.len() < 2 {
        return;
    }
    let at = r.from(0, file.len() as u64 / 2 - 1) as usize * 2;
    let old = u16::from_be_bytes([file[at], file[at + 1]]);
    let value = match r.from(0, 5) {
        0 => old.wrapping_add(1),
        1 => old.wrapping_sub(1),
        2 => r.number(0, UNUSED),
        _ => r.pick(&EDGES),
    };
    file[at..at + 2].copy_from_slice(&value.to_be_bytes());
}

pub fn damaged_file(r: &mut Random) -> Vec<u8> {
    let mut file = bytes(&any_site(r));
    for _ in 0..r.pick(&[0, 1, 1, 1, 1, 1, 2, 2, 3]) {
        if r.percent(60) {
            damage_number(r, &mut file);
        } else {
            cases::damage_file(r, &mut file);
        }
    }
    // a byte, and not a number
    if r.percent(10) && !file.is_empty() {
        let at = r.from(0, file.len() as u64 - 1) as usize;
        file[at] = r.number(0, 255) as u8;
    }
    file
}

pub fn files(seed: u64) -> Vec<Vec<u8>> {
    let mut r = Random::new(seed);
    (0..FILES).map(|_| damaged_file(&mut r)).collect()
}

/// Sound files, and some that are damaged.
pub fn timetable_files(seed: u64) -> Vec<Vec<u8>> {
    let mut r = Random::new(seed);
    (0..TIMETABLES).map(|_| if r.percent(70) { bytes(&any_site(&mut r)) } else { damaged_file(&mut r) }).collect()
}

// States.

pub fn any_state(r: &mut Random, s: &Setting) -> State {
    let cycle = r.number(20, 720);
    strange_state(r, &s.site.timings, cycle)
}

pub fn sound_input(r: &mut Random, s: &Setting) -> Input {
    let mut input = quiet(if r.percent(75) { fixed(cases::rate_from(r, 150)) } else { command(r, s, 40) });
    input.clock = jump(r, s);
    samples(r, s, 6, &mut input);
    input.preemption = r.percent(20) as u16;
    input.bypass = r.percent(50) as u16;
    input
}

/// A state in range with its ticks, then one that is spoilt, with one; by turns.
fn spoilt_states(r: &mut Random, s: &Setting) -> Vec<Op> {
    let mut ops = Vec::new();
    for _ in 0..50 {
        ops.extend([Op::State(any_state(r, s)), Op::Ticks(r.number(1, 4), sound_input(r, s))]);
        let mut state = any_state(r, s);
        cases::damage_state(r, s.site.timings[0], &mut state);
        let mut input = sound_input(r, s);
        // 13 goes before 8 to 10
        if r.percent(10) {
            damage_input(r, s, &mut input);
        }
        ops.extend([Op::State(state), Op::Ticks(1, input)]);
        if r.percent(30) {
            ops.extend([any_poll(r, s), any_decision(r, s)]);
        }
        if r.percent(40) {
            ops.push(Op::Readings);
        }
    }
    ops
}

// Inputs.

/// A tick's input with something out of range, then sound ones; by turns.
fn refused_inputs(r: &mut Random, s: &Setting) -> Vec<Op> {
    let mut ops = vec![Op::State(any_state(r, s))];
    for _ in 0..200 {
        let mut bad = sound_input(r, s);
        damage_input(r, s, &mut bad);
        ops.extend([Op::Ticks(1, bad), Op::Ticks(r.number(1, 6), sound_input(r, s))]);
    }
    ops
}

// Buffers and decisions.

pub fn any_decision(r: &mut Random, s: &Setting) -> Op {
    let mut input = sound_input(r, s);
    if r.percent(10) {
        damage_input(r, s, &mut input);
    }
    Op::Decide(input.clock, input.commands)
}

pub fn any_poll(r: &mut Random, s: &Setting) -> Op {
    let (n, m) = lanes(&s.site);
    Op::Poll(cases::poll_size(r, n, m))
}

/// Into a buffer that just holds the site's file, one that is a byte shorter or longer, or any.
fn any_write(r: &mut Random, s: &Setting) -> Op {
    let (size, any) = (bytes(&s.site).len() as u16, r.number(0, 640));
    Op::Write(r.pick(&[size - 1, size, size + 1, any]))
}

// Spoilt sites.

fn damage_timing(r: &mut Random) -> Op {
    let i = r.from(0, TIMINGS.len() as u64 - 1) as usize;
    let (low, high) = TIMINGS[i];
    let value = match r.from(0, 4) {
        0 => low.saturating_sub(1),
        1 => high + 1,
        2 => r.number(low, high),
        3 => r.pick(&EDGES),
        _ => r.number(0, UNUSED),
    };
    timing(i, value)
}

/// The count of a section with so many numbers in use and so many in all, a number in use, or one beyond.
fn damage_list(r: &mut Random, section: u16, width: u16, used: u16, all: u16) -> Op {
    let count = used / width;
    let value = if r.percent(80) { r.pick(&EDGES) } else { r.number(0, UNUSED) };
    match r.from(0, 3) {
        0 => Op::Damage(section, 0, r.pick(&[count.wrapping_sub(1), count + 1, all / width, all / width + 1, value])),
        1 if used < all => Op::Damage(section, r.number(used + 1, all), value),
        _ if 0 < used => Op::Damage(section, r.number(1, used), value),
        _ => Op::Damage(section, all, 1),
    }
}

pub fn damage_site(r: &mut Random, s: &Setting) -> Op {
    let Site { entries, holidays, levels, .. } = &s.site;
    match r.from(0, 3) {
        0 => damage_timing(r),
        1 => damage_list(r, 1, 5, 5 * entries.len() as u16, 80),
        2 => damage_list(r, 2, 5, 5 * holidays.len() as u16, 80),
        _ => damage_list(r, 3, 5, 5 * levels.len() as u16, 120),
    }
}

/// The record with a number or two changed and every call on it, then the record of the file again.
fn spoilt_sites(r: &mut Random, s: &Setting) -> Vec<Op> {
    let mut ops = Vec::new();
    for _ in 0..150 {
        ops.push(damage_site(r, s));
        if r.percent(10) {
            ops.push(damage_site(r, s));
        }
        ops.push(Op::Ticks(1, sound_input(r, s)));
        ops.extend([any_decision(r, s), any_poll(r, s), any_write(r, s), Op::Readings]);
        let powered = r.percent(10);
        if powered {
            ops.extend([Op::PowerUp, Op::Ticks(1, sound_input(r, s))]);
        }
        ops.push(Op::Repair);
        if powered {
            ops.push(Op::PowerUp);
        }
        ops.push(Op::Ticks(r.number(1, 6), sound_input(r, s)));
    }
    ops
}

// Runs.

/// Samples that change with every tick or two, up to a period's end and beyond.
fn busy_run(r: &mut Random, s: &Setting) -> Vec<Op> {
    let mut input = sound_input(r, s);
    let mut calls = [Calls::trucks(r, s, 1), Calls::buses(r, 4)];
    let mut ops = Vec::new();
    for _ in 0..650 {
        if r.percent(3) {
            input.commands = [command(r, s, 40), command(r, s, 60)];
        }
        if r.percent(1) {
            input.clock = jump(r, s);
        }
        let length = of_today(input.clock, r.number(1, 3));
        let count = next_calls(r, &mut calls, length, &mut input);
        // at times many vehicles
        let few = r.pick(&[1, 6, 6]);
        samples(r, s, few, &mut input);
        ops.push(Op::Ticks(count, input));
        input.clock = after(r, s, input.clock, count);
        if r.percent(5) {
            ops.push(Op::Readings);
        }
    }
    ops.extend([any_poll(r, s), Op::Readings]);
    ops
}

/// Metering soon and nearly all the time, with a bus now and then.
fn metered_run(r: &mut Random, k: u16) -> Vec<u8> {
    let s = soon_metering(r, k);
    let mut input = Input { preemption: 0, bypass: 0, ..sound_input(r, &s) };
    let mut calls = [Calls::trucks(r, &s, 1), Calls::buses(r, 15)];
    let mut ops = Vec::new();
    for _ in 0..250 {
        input.commands = steady_commands(r, &s);
        let length = of_today(input.clock, r.number(1, 8));
        let count = next_calls(r, &mut calls, length, &mut input);
        samples(r, &s, count, &mut input);
        // seldom two vehicles in a row
        if r.percent(50) {
            input.passage = [0; 4];
        }
        ops.push(Op::Ticks(count, input));
        input.clock = after(r, &s, input.clock, count);
    }
    ops.extend([any_poll(r, &s), Op::Readings]);
    from_power_up(&bytes(&s.site), &ops)
}

pub fn call_cases(seed: u64) -> Vec<Vec<u8>> {
    let mut r = Random::new(seed);
    let mut out = cases::cases(&mut r, DECISIONS);
    for k in 0..RUNS {
        let s = any_setting(&mut r, k);
        out.push(random_run(&mut r, &s));
    }
    for k in 0..STRANGE {
        let s = any_setting(&mut r, k);
        out.push(strange_states(&mut r, &s));
    }
    out.extend((0..METERED).map(|k| metered_run(&mut r, 5 * k)));
    out.extend((0..AIMED).map(|k| preemption_cases::aimed(&mut r, 7 * k)));
    out.extend((0..AIMED_BUSES).map(|k| random_calls::aimed(&mut r, 7 * k)));
    let kinds: [(u16, fn(&mut Random, &Setting) -> Vec<Op>); 4] =
        [(BUSY, busy_run), (SPOILT, spoilt_states), (REFUSED, refused_inputs), (DAMAGED, spoilt_sites)];
    for (many, ops) in kinds {
        for k in 0..many {
            let s = any_setting(&mut r, 5 * k);
            let ops = ops(&mut r, &s);
            out.push(from_power_up(&bytes(&s.site), &ops));
        }
    }
    out.extend(random_records::cases(&mut r, RECORDS));
    out
}
