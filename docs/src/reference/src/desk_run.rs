//! The cases of `crates/desk_cases`, and what it prints of them. A case is a row of two-byte numbers, the first its kind:
//!
//! 0 a fresh desk;
//! 1 this desk: who is enrolled as a number of 32 bits in two halves, bit k cabinet k; the turn; the tries;
//! 2 enrol, 3 remove: a cabinet's number of 64 bits, in four numbers;
//! 4 tick: the answer, likewise.
//!
//! Of a longer number the highest part comes first. One desk is kept over all cases, and is fresh before the first one.

use crate::desk::{Answer, Call, Desk};
use crate::desk_watch::Watched;
use crate::periods::halves;
use crate::tally::Tally;

#[derive(Clone, Copy, Debug)]
pub enum Op {
    Fresh,
    Given(Desk),
    Call(Call),
}

// Bytes.

fn call_words(kind: u16, number: u64) -> Vec<u16> {
    [&[kind], &halves((number >> 32) as u32)[..], &halves(number as u32)].concat()
}

impl Op {
    fn words(&self) -> Vec<u16> {
        match self {
            Op::Fresh => vec![0],
            Op::Given(desk) => [&[1], &halves(desk.mask())[..], &[desk.turn as u16, desk.tries as u16]].concat(),
            Op::Call(Call::Enrol(cabinet)) => call_words(2, *cabinet),
            Op::Call(Call::Remove(cabinet)) => call_words(3, *cabinet),
            Op::Call(Call::Tick(answer)) => call_words(4, *answer),
        }
    }

    pub fn bytes(&self) -> Vec<u8> {
        self.words().into_iter().flat_map(u16::to_be_bytes).collect()
    }

    fn of(bytes: &[u8]) -> Op {
        let words: Vec<u16> = bytes.chunks(2).map(|two| two.try_into().map(u16::from_be_bytes).expect("two bytes")).collect();
        let (kind, rest) = words.split_first().expect("a kind");
        let number = || rest.iter().fold(0, |number, word| number << 16 | *word as u64);
        match (kind, rest) {
            (0, []) => Op::Fresh,
            (1, [high, low, turn, tries]) => {
                let small = |word: u16| word.try_into().expect("a turn or tries of 0-255");
                Op::Given(Desk::of((*high as u32) << 16 | *low as u32, small(*turn), small(*tries)))
            }
            (2, [_, _, _, _]) => Op::Call(Call::Enrol(number())),
            (3, [_, _, _, _]) => Op::Call(Call::Remove(number())),
            (4, [_, _, _, _]) => Op::Call(Call::Tick(number())),
            _ => panic!("no case: {words:?}"),
        }
    }
}

// What is counted.

/// Every kind that is counted; with none of a kind, 0 is printed.
const KINDS: [&str; 30] = [
    "desk calls",
    "enrolments",
    "enrolments of one that is enrolled",
    "removals",
    "removals of one that is not enrolled",
    "removals of the one in turn",
    "removals of the one in turn, enrolled again before the next tick",
    "desk ticks",
    "desk ticks after an answer",
    "desk ticks after one silence",
    "desk ticks after two silences",
    "desk ticks after three silences",
    "desk ticks that pass the turn past 31",
    "desk ticks with one enrolled",
    "desk ticks that poll nobody",
    "desk ticks after nobody was polled",
    "desk ticks whose one in turn was removed",
    "enrolments refused with 13",
    "enrolments refused with 18",
    "removals refused with 13",
    "removals refused with 18",
    "desk ticks refused with 13",
    "desk ticks refused with 18",
    "desk ticks refused with 18 where nobody was polled",
    "desks given whose turn is above 31",
    "desks given whose tries exceed 3",
    "desks given that no run since fresh gives",
    "waits of the longest that n enrolled allow",
    "waits of 94 ticks",
    "waits of n ticks with all answering",
];

/// Whether the cabinet polled last is not enrolled.
fn lacks_the_one_in_turn(desk: &Desk) -> bool {
    desk.in_turn().is_some_and(|cabinet| !desk.is_enrolled(cabinet))
}

fn count_given(desk: &Desk, tally: &mut Tally) {
    // a removal leaves tries 3
    let no_run = desk.is_spoilt() || desk.tries == 0 && desk.turn > 0 || desk.tries < 3 && lacks_the_one_in_turn(desk);
    tally.count("desks given whose turn is above 31", (desk.turn > 31) as u64);
    tally.count("desks given whose tries exceed 3", (desk.tries > 3) as u64);
    tally.count("desks given that no run since fresh gives", no_run as u64);
}

fn count_refused(before: &Desk, call: Call, refusal: u8, tally: &mut Tally) {
    let what = match call {
        Call::Enrol(_) => "enrolments",
        Call::Remove(_) => "removals",
        Call::Tick(_) => "desk ticks",
    };
    tally.count(&format!("{what} refused with {refusal}"), 1);
    if matches!(call, Call::Tick(_)) && refusal == 18 {
        tally.count("desk ticks refused with 18 where nobody was polled", before.in_turn().is_none() as u64);
    }
}

/// An accepted tick, and whether the one in turn was removed since the tick before it.
fn count_tick(before: &Desk, was_removed: bool, told: u64, after: &Desk, tally: &mut Tally) {
    let kind = match before.tries {
        0 => "desk ticks after nobody was polled",
        _ if was_removed || lacks_the_one_in_turn(before) => "desk ticks whose one in turn was removed",
        _ if told == 1 => "desk ticks after an answer",
        1 => "desk ticks after one silence",
        2 => "desk ticks after two silences",
        _ => "desk ticks after three silences",
    };
    tally.count("desk ticks", 1);
    tally.count(kind, 1);
    let passes = before.tries > 0 && after.tries == 1;
    tally.count("desk ticks that pass the turn past 31", (passes && after.turn <= before.turn) as u64);
    tally.count("desk ticks with one enrolled", (before.numbers().count() == 1) as u64);
    tally.count("desk ticks that poll nobody", after.in_turn().is_none() as u64);
}

// A run.

/// The desk, and whether the one in turn was removed since the last accepted tick.
struct Run {
    watched: Watched,
    was_removed: bool,
    tally: Tally,
}

impl Run {
    fn count_call(&mut self, before: &Desk, call: Call, answer: Answer) {
        let tally = &mut self.tally;
        tally.count("desk calls", 1);
        if answer.refusal != 0 {
            return count_refused(before, call, answer.refusal, tally);
        }
        match call {
            Call::Enrol(cabinet) => {
                let is_enrolled = before.is_enrolled(cabinet as u8);
                let again = self.was_removed && !is_enrolled && before.turn == cabinet as u8;
                tally.count("enrolments", 1);
                tally.count("enrolments of one that is enrolled", is_enrolled as u64);
                tally.count("removals of the one in turn, enrolled again before the next tick", again as u64);
            }
            Call::Remove(cabinet) => {
                let is_enrolled = before.is_enrolled(cabinet as u8);
                let in_turn = is_enrolled && before.in_turn() == Some(cabinet as u8);
                tally.count("removals", 1);
                tally.count("removals of one that is not enrolled", !is_enrolled as u64);
                tally.count("removals of the one in turn", in_turn as u64);
                self.was_removed |= in_turn;
            }
            Call::Tick(told) => {
                count_tick(before, self.was_removed, told, self.watched.desk(), tally);
                self.was_removed = false;
            }
        }
    }

    /// What is printed of a call, but for the desk.
    fn call(&mut self, call: Call) -> String {
        let before = *self.watched.desk();
        let answer = self.watched.call(call, &mut self.tally);
        self.count_call(&before, call, answer);
        let Answer { refusal, polled } = answer;
        match call {
            Call::Enrol(cabinet) => format!("enrol {cabinet} {refusal}"),
            Call::Remove(cabinet) => format!("remove {cabinet} {refusal}"),
            Call::Tick(told) => format!("tick {told} {refusal} {}", polled.map_or("nobody".to_string(), |cabinet| cabinet.to_string())),
        }
    }

    /// The line of a case.
    fn line(&mut self, op: Op) -> String {
        let said = match op {
            Op::Fresh => {
                (self.watched, self.was_removed) = (Watched::fresh(), false);
                "fresh".to_string()
            }
            Op::Given(desk) => {
                count_given(&desk, &mut self.tally);
                (self.watched, self.was_removed) = (Watched::given(desk), false);
                "desk".to_string()
            }
            Op::Call(call) => self.call(call),
        };
        let desk = self.watched.desk();
        format!("{said} {} {} {}\n", desk.turn, desk.tries, desk.mask())
    }
}

/// The lines of all cases.
pub fn answers(cases: &[Vec<u8>], tally: &mut Tally) -> String {
    let mut run = Run { watched: Watched::fresh(), was_removed: false, tally: Tally::default() };
    for kind in KINDS {
        run.tally.count(kind, 0);
    }
    let lines = cases.iter().map(|case| run.line(Op::of(case))).collect();
    assert_eq!(run.tally.print().lines().count(), KINDS.len(), "a kind that is not listed");
    tally.add(&run.tally);
    lines
}

/// The kinds that these cases lack.
pub fn lacking(cases: &[Vec<u8>]) -> Vec<String> {
    let tally = &mut Tally::default();
    answers(cases, tally);
    tally.print().lines().filter_map(|line| line.strip_prefix("0 ")).map(str::to_string).collect()
}
