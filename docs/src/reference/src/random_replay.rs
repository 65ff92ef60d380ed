//! Fresh random runs of a seed for the replay program: a site file and ticks, at times refused ones, in lines that end in many ways and
//! are damaged at times.

use crate::periods::halves;
use crate::random::Random;
use crate::random_calls::{next_calls, Calls};
use crate::random_cases::{any_setting, damaged_file, soon_metering, sound_input, steady_commands};
use crate::replay::{self, Replayed};
use crate::row;
use crate::site::bytes;
use crate::tally::Tally;
use crate::tick::Input;
use crate::tick_cases::{after, command, damage_input, jump, samples, Setting};
use crate::wanted::lanes;

/// Runs of each kind in one seed.
const LONG: u16 = 6;
const METERED: u16 = 6;
const SHORT: u16 = 60;

pub struct Run {
    pub file: Vec<u8>,
    pub ticks: Vec<u8>,
}

// Ticks.

/// A line's words: the row with the tenth as one number.
fn words(input: &Input, n: usize, m: usize) -> Vec<Vec<u8>> {
    let row = row::numbers(input, n, m);
    assert_eq!(row[3..5], halves(input.clock.tenth));
    let numbers = [&row[..3], &row[5..]].concat();
    let mut words: Vec<Vec<u8>> = numbers.iter().map(|n| n.to_string().into_bytes()).collect();
    words.insert(3, input.clock.tenth.to_string().into_bytes());
    words
}

/// So many ticks, a tenth apart, over midnight too, but for a jump now and then; of a hundred so many damaged.
pub fn inputs(r: &mut Random, s: &Setting, many: usize, damaged: u64) -> Vec<Input> {
    let mut input = sound_input(r, s);
    let mut calls = [Calls::trucks(r, s, 1), Calls::buses(r, 3)];
    let mut out = Vec::new();
    for _ in 0..many {
        if r.percent(2) {
            input.commands = [command(r, s, 40), command(r, s, 60)];
        }
        if r.percent(1) {
            input.clock = jump(r, s);
        }
        samples(r, s, 2, &mut input);
        next_calls(r, &mut calls, 1, &mut input);
        let mut sent = input;
        if r.percent(damaged) {
            damage_input(r, s, &mut sent);
        }
        out.push(sent);
        input.clock = after(r, s, input.clock, 1);
    }
    out
}

/// The same where metering is wanted nearly all the time, with a bus now and then.
pub fn metered_inputs(r: &mut Random, s: &Setting, many: usize) -> Vec<Input> {
    let mut input = sound_input(r, s);
    let mut calls = [Calls::trucks(r, s, 0), Calls::buses(r, 3)];
    let mut out = Vec::new();
    for _ in 0..many {
        input.commands = steady_commands(r, s);
        samples(r, s, 2, &mut input);
        // seldom a vehicle
        if r.percent(80) {
            input.passage = [0; 4];
        }
        next_calls(r, &mut calls, 1, &mut input);
        out.push(input);
        input.clock = after(r, s, input.clock, 1);
    }
    out
}

// Lines.

/// Some place in a list, the end too.
fn place(r: &mut Random, length: usize) -> usize {
    r.from(0, length as u64) as usize
}

/// What a line that is a tick may have besides: leading zeros, blanks behind, a carriage return.
fn decorate(r: &mut Random, words: &mut [Vec<u8>]) -> Vec<u8> {
    if r.percent(5) {
        let k = place(r, words.len() - 1);
        let zeros = r.pick(&[1, 2, 30]);
        words[k].splice(0..0, vec![b'0'; zeros]);
    }
    let mut line = words.join(&b' ');
    if r.percent(5) {
        line.extend(vec![b' '; r.pick(&[1, 2, 40])]);
    }
    if r.percent(5) {
        line.push(b'\r');
    }
    line
}

/// Words that are no number of a tick, or just are one.
const WORDS: [&[u8]; 18] = [
    b"", b"x", b"-1", b"+1", b"1.5", b"0x1f", b"1o", b"1\t", b"\r", b"\0", b"\xc3\xa9", b"65535", b"65536", b"000065536", b"70000",
    b"4294967295", b"4294967296", b"99999999999999999999999999",
];
const BYTES: [u8; 12] = [b' ', b' ', b'\r', b'\t', b'\n', 0, b'0', b'9', b'/', b':', b'a', 255];
const BLANK_LINES: [&[u8]; 7] = [b"", b" ", b"   ", b"\r", b"  \r", b"\r\r", b" \r "];

/// A word replaced, words left out or added.
fn damage_words(r: &mut Random, words: &mut Vec<Vec<u8>>) {
    let k = place(r, words.len() - 1);
    match r.from(0, 5) {
        0 => words.truncate(k),
        1 => words.extend(vec![b"0".to_vec(); r.pick(&[1, 2, 50])]),
        2 => words.insert(k, r.pick(&WORDS).to_vec()),
        _ => words[k] = r.pick(&WORDS).to_vec(),
    }
}

/// A byte put in, taken out or changed.
fn damage_bytes(r: &mut Random, line: &mut Vec<u8>) {
    let k = place(r, line.len());
    match r.from(0, 3) {
        0 if k < line.len() => {
            line.remove(k);
        }
        1 if k < line.len() => line[k] = r.pick(&BYTES),
        2 => line.push(r.pick(&BYTES)),
        _ => line.insert(k, r.pick(&BYTES)),
    }
}

fn damaged_line(r: &mut Random, mut words: Vec<Vec<u8>>) -> Vec<u8> {
    if r.percent(5) {
        return r.pick(&BLANK_LINES).to_vec();
    }
    if r.percent(60) {
        damage_words(r, &mut words);
    }
    let mut line = if words.is_empty() { Vec::new() } else { decorate(r, &mut words) };
    for _ in 0..r.pick(&[0, 1, 1, 2]) {
        damage_bytes(r, &mut line);
    }
    line
}

/// The lines of the ticks, one of them damaged in most runs; the last may lack its newline.
fn text(r: &mut Random, s: &Setting, inputs: &[Input]) -> Vec<u8> {
    let (n, m) = lanes(&s.site);
    let damaged = if r.percent(75) { place(r, inputs.len() - 1) } else { inputs.len() };
    let mut lines = Vec::new();
    for (i, input) in inputs.iter().enumerate() {
        let mut words = words(input, n, m);
        lines.push(if i == damaged { damaged_line(r, words) } else { decorate(r, &mut words) });
    }
    let mut text = lines.join(&b'\n');
    if r.percent(70) {
        text.push(b'\n');
    }
    text
}

// Runs.

fn run(r: &mut Random, k: u16, ticks: usize) -> Run {
    let s = any_setting(r, k);
    let inputs = inputs(r, &s, ticks, 2);
    let file = if r.percent(5) { damaged_file(r) } else { bytes(&s.site) };
    Run { file, ticks: text(r, &s, &inputs) }
}

fn metered_run(r: &mut Random, k: u16) -> Run {
    let s = soon_metering(r, k);
    let ticks = r.from(200, 700) as usize;
    let inputs = metered_inputs(r, &s, ticks);
    Run { file: bytes(&s.site), ticks: text(r, &s, &inputs) }
}

pub fn runs(seed: u64) -> Vec<Run> {
    let mut r = Random::new(seed);
    let mut out = Vec::new();
    for (many, least, most) in [(LONG, 310, 1000), (SHORT, 1, 6)] {
        for k in 0..many {
            let ticks = r.from(least, most) as usize;
            out.push(run(&mut r, k, ticks));
        }
    }
    out.extend((0..METERED).map(|k| metered_run(&mut r, 5 * k)));
    out
}

/// What the program writes of a run, in a folder whose site file has the default name.
pub fn answer(run: &Run, tally: &mut Tally) -> Replayed {
    let said = replay::print(&run.file, "site.bin", &run.ticks);
    let first_words = said.output.lines().filter_map(|line| line.split(' ').next());
    tally.count("replayed ticks", first_words.filter(|word| word.parse::<u32>().is_ok()).count() as u64);
    tally.count("replayed ticks whose cycle is a half going up", said.halves);
    let lines = |part: &str| said.output.lines().filter(|line| line.starts_with("speeds ") && line.contains(part)).count() as u64;
    for (part, what) in [(" m ", "a measured lane"), (" c ", "a lane carried over"), (" - ", "an absent lane")] {
        tally.count(&format!("replayed lines of speeds with {what}"), lines(part));
    }
    tally.count("replays that end at a line that is no tick", said.output.contains(" is no tick: ") as u64);
    tally.count("replays with something refused", !said.explanation.is_empty() as u64);
    tally.count("replays", 1);
    said.preemptions.count(tally);
    said.bypasses.count(tally);
    said.speeds.count(tally);
    said.in_force.count("replayed ticks", tally);
    said.in_force.count_midnights("replayed ticks", tally);
    said
}
