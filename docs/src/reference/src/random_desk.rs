//! Fresh random cases of a seed for `crates/desk_cases`, and lines for the program `polling_desk`. An even seed is one run since fresh; in
//! an odd one desks of any numbers are strewn in.

use crate::desk::{Call, Desk, CABINETS};
use crate::desk_lines::NO_CALLS;
use crate::desk_run::Op;
use crate::polling_desk::LONGEST;
use crate::random::Random;

/// In one seed.
const CASES: usize = 100_000;
const LINES: usize = 2000;

/// The greatest cabinet and the greatest answer.
const LAST: u64 = CABINETS as u64 - 1;
const ANSWERED: u64 = 1;

// Numbers.

fn any_bits(r: &mut Random) -> u64 {
    let half = u32::MAX as u64;
    r.from(0, half) << 32 | r.from(0, half)
}

/// Above the greatest: just so, around the ends of shorter numbers, or such that its low bits alone are in range; or anything.
fn too_large(r: &mut Random, most: u64) -> u64 {
    let bits = r.pick(&[8, 16, 32, 48, 63]);
    let low = r.from(0, most);
    let any = any_bits(r) >> r.pick(&[0, 0, 16, 32, 48]);
    let number = r.pick(&[most + 1, most + 2, u64::MAX, (1 << bits) - 1, 1 << bits, (1 << bits) + low, any, any << 8 | low]);
    number.max(most + 1)
}

// Calls on a desk.

/// The calls so far, at most so many, and the desk that they lead to.
struct Calls {
    r: Random,
    desk: Desk,
    ops: Vec<Op>,
    most: usize,
}

impl Calls {
    fn new(seed: u64, most: usize) -> Calls {
        Calls { r: Random::new(seed), desk: Desk::default(), ops: vec![Op::Fresh], most }
    }

    fn is_full(&self) -> bool {
        self.ops.len() >= self.most
    }

    fn call(&mut self, call: Call) {
        self.desk.call(call);
        self.ops.push(Op::Call(call));
    }

    fn any_cabinet(&mut self) -> u64 {
        self.r.from(0, LAST)
    }

    /// One that is enrolled, or else is not; anyone where there is none such.
    fn any_that(&mut self, is_enrolled: bool) -> u64 {
        let such: Vec<u64> = (0..CABINETS).filter(|k| self.desk.is_enrolled(*k) == is_enrolled).map(u64::from).collect();
        if such.is_empty() {
            return self.any_cabinet();
        }
        self.r.pick(&such)
    }

    /// A tick told 0 with such a chance of a hundred.
    fn tick(&mut self, silent: u64) {
        let answer = !self.r.percent(silent) as u64;
        self.call(Call::Tick(answer));
    }

    /// A call that changes nothing.
    fn idle(&mut self) {
        let call = match self.r.from(0, 4) {
            0 => Call::Enrol(too_large(&mut self.r, LAST)),
            1 => Call::Remove(too_large(&mut self.r, LAST)),
            2 => Call::Tick(too_large(&mut self.r, ANSWERED)),
            3 if self.desk.mask() != 0 => Call::Enrol(self.any_that(true)),
            _ if self.desk.mask() != u32::MAX => Call::Remove(self.any_that(false)),
            _ => Call::Tick(too_large(&mut self.r, ANSWERED)),
        };
        self.call(call);
    }

    /// Enrols or removes until so many are enrolled, with a tick now and then.
    fn enrol_so_many(&mut self, many: usize) {
        let ticks = self.r.pick(&[0, 0, 20, 50]);
        while !self.is_full() && self.desk.numbers().count() != many {
            let too_few = self.desk.numbers().count() < many;
            let cabinet = self.any_that(!too_few);
            self.call(if too_few { Call::Enrol(cabinet) } else { Call::Remove(cabinet) });
            if self.r.percent(ticks) {
                self.tick(50);
            }
        }
    }

    /// So many ticks with the enrolment unchanged, told 0 with such a chance; now and then a call between them that changes nothing.
    fn steady(&mut self, ticks: u64, silent: u64) {
        let idle = self.r.pick(&[0, 3, 20]);
        for _ in 0..ticks {
            if self.r.percent(idle) {
                self.idle();
            }
            self.tick(silent);
        }
    }

    /// The one in turn is removed, and often enrolled again, at once or behind other calls.
    fn remove_in_turn(&mut self) {
        let Some(cabinet) = self.desk.in_turn().map(u64::from) else {
            return self.tick(50);
        };
        self.call(Call::Remove(cabinet));
        if self.r.percent(30) {
            self.idle();
        }
        match self.r.from(0, 5) {
            0..=2 => self.call(Call::Enrol(cabinet)),
            3 => {
                self.tick(50);
                self.call(Call::Enrol(cabinet));
            }
            _ => {}
        }
    }

    /// Everybody is removed; with a tick or without one, some are enrolled again.
    fn remove_all(&mut self) {
        for cabinet in self.desk.numbers().collect::<Vec<u8>>() {
            self.call(Call::Remove(cabinet as u64));
        }
        for _ in 0..self.r.from(0, 2) {
            self.tick(50);
        }
        for _ in 0..self.r.from(1, 4) {
            let cabinet = self.any_cabinet();
            self.call(Call::Enrol(cabinet));
        }
    }

    fn restless(&mut self) {
        let cabinet = self.any_cabinet();
        match self.r.from(0, 19) {
            0..=9 => self.tick(60),
            10 | 11 => self.call(Call::Enrol(cabinet)),
            12 => self.call(Call::Remove(cabinet)),
            13 => {
                let cabinet = self.any_that(true);
                self.call(Call::Remove(cabinet));
            }
            14..=16 => self.remove_in_turn(),
            17 if self.r.percent(20) => self.remove_all(),
            _ => self.idle(),
        }
    }

    /// Few or many are enrolled; then for long nothing of that changes; then much does.
    fn phase(&mut self) {
        let any = self.r.from(0, 32) as usize;
        let many = self.r.pick(&[0, 1, 2, 3, 4, 7, any, any, any, 30, 31, 32, 32, 32]);
        self.enrol_so_many(many);
        let round = 3 * many as u64;
        for _ in 0..self.r.from(0, 3) {
            let ticks = self.r.pick(&[2, 10, round, round + 5, 2 * round + 5]);
            let silent = self.r.pick(&[0, 0, 100, 100, 100, 3, 20, 50, 80, 97]);
            self.steady(ticks, silent);
        }
        for _ in 0..self.r.pick(&[0, 1, 5, 20, 60]) {
            self.restless();
        }
    }

    /// Any numbers: mostly in range, and often one that a run could lead to.
    fn any_desk(&mut self) -> Desk {
        let r = &mut self.r;
        let bits = r.from(0, u32::MAX as u64) as u32;
        let few = 1 << r.from(0, LAST) | 1 << r.from(0, LAST);
        let (any, byte) = (r.number(0, 31) as u8, r.number(0, 255) as u8);
        let turn = r.pick(&[0, 31, any, any, any, any, any, any, any, any, 32, byte]);
        let own = 1 << (turn % 32);
        let mask = r.pick(&[0, own, few, few, few | own, bits, bits | own, !few, !few | own, u32::MAX, u32::MAX - own]);
        let tries = r.pick(&[0, 1, 1, 1, 2, 2, 2, 3, 3, 3, 4, byte]);
        Desk::of(mask, turn, tries)
    }

    /// A desk in place of the present one, and some calls; on a spoilt one they are few.
    fn give(&mut self) {
        let desk = self.any_desk();
        self.desk = desk;
        self.ops.push(Op::Given(desk));
        let most = if desk.is_spoilt() { 3 } else { 12 };
        for _ in 0..self.r.from(1, most) {
            self.restless();
        }
    }

    fn fresh(&mut self) {
        self.desk = Desk::default();
        self.ops.push(Op::Fresh);
    }

    fn cut(mut self) -> Vec<Op> {
        self.ops.truncate(self.most);
        self.ops
    }
}

/// One run since fresh, of so many cases.
pub fn since_fresh(seed: u64, many: usize) -> Vec<Op> {
    let mut calls = Calls::new(seed, many);
    while !calls.is_full() {
        calls.phase();
    }
    calls.cut()
}

/// Given desks, and now and then a run since fresh, or phases from a given desk on.
fn strewn(seed: u64, many: usize) -> Vec<Op> {
    let mut calls = Calls::new(seed, many);
    while !calls.is_full() {
        match calls.r.from(0, 49) {
            0 => {
                calls.fresh();
                calls.phase();
            }
            1 if !calls.desk.is_spoilt() => calls.phase(),
            _ => calls.give(),
        }
    }
    calls.cut()
}

pub fn cases(seed: u64) -> Vec<Vec<u8>> {
    let ops = if seed % 2 == 0 { since_fresh(seed, CASES) } else { strewn(seed, CASES) };
    ops.iter().map(Op::bytes).collect()
}

// Lines.

/// How a line may end before its newline.
fn end(r: &mut Random) -> String {
    let blanks = r.pick(&[0, 0, 0, 0, 0, 1, 2, 30]);
    " ".repeat(blanks) + r.pick(&["", "", "", "\r"])
}

/// A number, mostly without zeros before it.
fn written(r: &mut Random, number: u64) -> String {
    let zeros = r.pick(&[0, 0, 0, 0, 0, 0, 1, 2, 25, 300]);
    "0".repeat(zeros) + &number.to_string()
}

/// Digits, more than a number of 64 bits has.
fn digits(r: &mut Random) -> String {
    let many = r.pick(&[20, 21, 40, 300]);
    let first = r.from(1, 9).to_string();
    let others: String = (0..many).map(|_| r.from(0, 9).to_string()).collect();
    first + &others
}

/// A word, and the greatest number that may be behind it.
fn word(r: &mut Random) -> (&'static str, u64) {
    let (tick, enrol, remove) = (("tick", ANSWERED), ("enrol", LAST), ("remove", LAST));
    r.pick(&[tick, tick, tick, tick, tick, enrol, enrol, remove, remove])
}

/// Often one of a few, so that the one in turn is met.
fn in_range(r: &mut Random, most: u64) -> u64 {
    let any = r.from(0, most);
    r.pick(&[any, any, any, 0, 5, 6, 31]).min(most)
}

/// A call, at times with a number that is refused.
fn call(r: &mut Random) -> String {
    let (word, most) = word(r);
    let number = match r.from(0, 19) {
        0 => digits(r),
        1 | 2 => {
            let number = too_large(r, most);
            written(r, number)
        }
        _ => {
            let number = in_range(r, most);
            written(r, number)
        }
    };
    format!("{word} {number}")
}

/// A call as long as a line may be, or about so, by zeros or by blanks.
fn long_line(r: &mut Random) -> String {
    let (word, most) = word(r);
    let number = r.from(0, most).to_string();
    let end = r.pick(&["", "\r"]);
    let length = LONGEST as u64;
    let length = r.pick(&[length - 1, length, length, length + 1, length + 1, length + 2, 2 * length]) as usize;
    let filling = length - word.len() - 1 - number.len() - end.len();
    if r.percent(50) {
        return format!("{word} {}{number}{end}", "0".repeat(filling));
    }
    format!("{word} {number}{}{end}", " ".repeat(filling))
}

/// A line with a byte put in, changed or taken away.
fn spoilt(r: &mut Random, line: String) -> Vec<u8> {
    let mut line = line.into_bytes();
    let any = r.number(0, 255) as u8;
    let byte = r.pick(&[any, any, b' ', b'\t', b'\r', b'0', b'-', b'+', b'.', 0]);
    let at = r.from(0, line.len() as u64 - 1) as usize;
    match r.from(0, 2) {
        0 => line.insert(at, byte),
        1 => line[at] = byte,
        _ => drop(line.remove(at)),
    }
    line
}

fn any_bytes(r: &mut Random) -> Vec<u8> {
    (0..r.from(0, 12)).map(|_| r.number(0, 255) as u8).collect()
}

fn line(r: &mut Random) -> Vec<u8> {
    match r.from(0, 99) {
        0..=4 => r.pick(&NO_CALLS).to_vec(),
        5..=7 => {
            let line = call(r) + &end(r);
            spoilt(r, line)
        }
        8 => any_bytes(r),
        9 => long_line(r).into_bytes(),
        _ => (call(r) + &end(r)).into_bytes(),
    }
}

/// Lines, each with its newline; of an even seed the last one lacks it.
pub fn lines(seed: u64) -> Vec<u8> {
    let mut r = Random::new(seed);
    let mut out: Vec<u8> = (0..LINES).flat_map(|_| [line(&mut r), b"\n".to_vec()].concat()).collect();
    if seed % 2 == 0 {
        out.pop();
    }
    out
}
