//! Stored cases of the polling desk: a little run or some for each sentence of the page, refused numbers, a grid of given desks, and random
//! calls. Where a comment has words in quotation marks, they are the page's.
//!
//! A run is written in words: `+5` enrols cabinet 5, `-5` removes it, `0:5` is a tick that is told 0 and polls 5, and `1:-` one that is
//! told 1 and polls nobody. `+32!18` is refused with 18, and so is the tick `2!18`. What is polled or refused is found by hand; the rules
//! are held to it.

use crate::desk::{Answer, Call, Desk};
use crate::desk_run::{self, Op};
use crate::random_desk;

const SEED: u64 = 14;
const RANDOM_CALLS: usize = 2000;

/// All 32 enrolled.
const ALL: u32 = u32::MAX;

// Runs.

fn number<T: std::str::FromStr>(text: &str) -> T {
    text.parse().ok().expect("a number")
}

/// A word as its call and its answer.
fn step(word: &str) -> (Call, Answer) {
    let (word, refusal) = word.split_once('!').unwrap_or((word, "0"));
    let (call, polled) = word.split_once(':').unwrap_or((word, "-"));
    let call = match call.as_bytes()[0] {
        b'+' => Call::Enrol(number(&call[1..])),
        b'-' => Call::Remove(number(&call[1..])),
        _ => Call::Tick(number(call)),
    };
    (call, Answer { refusal: number(refusal), polled: (polled != "-").then(|| number(polled)) })
}

/// The calls on a desk.
fn calls(mut desk: Desk, text: &str) -> Vec<Op> {
    let mut called = |word| {
        let (call, wanted) = step(word);
        assert_eq!(desk.call(call), wanted, "{word} in {text}");
        Op::Call(call)
    };
    text.split_whitespace().map(&mut called).collect()
}

/// A fresh desk, and calls.
fn fresh(text: impl AsRef<str>) -> Vec<Op> {
    [vec![Op::Fresh], calls(Desk::default(), text.as_ref())].concat()
}

fn each_fresh(runs: &[&str]) -> Vec<Op> {
    runs.iter().flat_map(fresh).collect()
}

/// A desk with this turn, these tries and these enrolled, and calls.
fn given(turn: u8, tries: u8, enrolled: &[u8], text: &str) -> Vec<Op> {
    let desk = Desk::of(enrolled.iter().map(|cabinet| 1 << cabinet).sum(), turn, tries);
    [vec![Op::Given(desk)], calls(desk, text)].concat()
}

/// Words of so many numbers, from 0.
fn words(many: u64, word: impl Fn(u64) -> String) -> String {
    (0..many).map(|i| word(i) + " ").collect()
}

/// The first so many cabinets enrolled.
fn enrolled(many: u64) -> String {
    words(many, |i| format!("+{i}"))
}

// "The centre's desk polls cabinets 0-31 over one line."

/// Each alone, and the two at the ends together.
fn each_cabinet() -> Vec<Op> {
    let mut out: Vec<Op> = (0..32).flat_map(|i| fresh(format!("+{i} 0:{i} 1:{i} -{i} 1:-"))).collect();
    out.extend(fresh("+31 +0 0:0 1:31 1:0 1:31"));
    out
}

// "It can enrol or remove a cabinet; repeating either changes nothing."

fn repeated() -> Vec<Op> {
    each_fresh(&[
        "+5 +5 0:5 1:5",
        // the one in turn has no more tries for it
        "+5 +9 0:5 +5 0:5 +5 +9 0:5 +5 0:9",
        "+5 +9 -9 -9 0:5 1:5",
        "+5 +9 0:5 -9 -9 0:5 -9 0:5 0:5 0:5",
        "+5 +9 0:5 -5 -5 1:9 -5 0:9 -5 0:9 -5 0:9",
        "-5 0:- -5 1:- +5 -5 -5 0:-",
        // removed twice and enrolled again twice
        "+5 +9 0:5 -5 -5 +5 +5 0:9 0:9 0:9 0:5",
        // nobody is in turn, nor is cabinet 0
        "-0 0:- -0 1:-",
        "-0 +0 +5 0:0 0:0 0:0 0:5",
        "+0 +5 -0 +0 0:0 0:0 0:0 0:5",
        "+0 -0 +0 1:0 0:0 0:0 0:0",
        "0:- +0 -0 +0 +5 0:0 0:0 0:0 0:5",
        // a removal of one that is not enrolled, though the turn has its number
        "+0 0:0 -0 0:- -0 +0 +1 0:0 0:0 0:0 0:1",
    ])
}

// "Each tick it polls one cabinet or, with none enrolled, nobody."

fn one_or_nobody() -> Vec<Op> {
    each_fresh(&["0:- 1:- 0:- 0:- 0:-", "+7 0:7 1:7 -7 1:- 0:- +7 0:7", "+7 -7 0:-", "+7 +8 -7 0:8 -8 0:- 0:-"])
}

// "The first turn goes to the lowest enrolled number."

fn first_turn() -> Vec<Op> {
    each_fresh(&[
        "+31 +17 +4 +12 0:4",
        "+31 0:31",
        "+31 +30 +0 1:0",
        "+3 +2 +1 0:1",
        "+3 +2 +1 -1 1:2",
        "0:- 0:- +20 +10 0:10",
        // a lower one comes in its turn and not before
        "+9 0:9 +3 0:9 0:9 0:3",
        "+9 +12 0:9 +3 1:12 1:3 1:9",
    ])
}

// "The next tick says, 0 or 1, whether it answered; with nobody polled that is ignored."

fn answers() -> Vec<Op> {
    each_fresh(&[
        "+4 +8 0:4 0:4 0:4 0:8",
        "+4 +8 1:4 0:4 0:4 0:8",
        "+4 +8 1:4 1:8",
        "+4 +8 0:4 1:8",
        "1:- +4 +8 1:4 0:4 1:8",
        "0:- +4 +8 0:4 1:8 0:8 1:4",
        "0:- 1:- 1:- 1:- 1:- +4 +8 1:4 1:8",
    ])
}

// "After an answer the turn passes on."

fn answered() -> Vec<Op> {
    each_fresh(&[
        "+2 +6 +30 0:2 1:6 1:30 1:2 1:6",
        "+2 +6 +30 0:2 0:2 1:6 0:6 0:6 1:30 0:30 1:2",
        // it has its three tries again when its turn comes again
        "+2 +6 0:2 0:2 0:2 1:6 1:2 0:2 0:2 0:6 0:6 0:6 0:2",
        "+2 +6 0:2 0:2 1:6 0:6 1:2 0:2 0:2 0:6",
        // alone it is its own next one
        "+6 0:6 1:6 1:6 0:6 1:6 0:6 0:6 1:6 0:6 0:6 0:6",
    ])
}

/// All 32, each of which answers.
fn all_answering() -> Vec<Op> {
    fresh(enrolled(32) + &words(40, |i| format!("1:{}", i % 32)))
}

// "A silent cabinet is polled three times running, then the turn passes to the next higher enrolled number, wrapping past 31."

fn silent() -> Vec<Op> {
    each_fresh(&[
        "+2 +6 0:2 0:2 0:2 0:6 0:6 0:6 0:2 0:2 0:2 0:6",
        "+31 +0 0:0 0:0 0:0 0:31 0:31 0:31 0:0 0:0 0:0 0:31",
        "+30 +31 +1 1:1 1:30 1:31 1:1",
        "+31 0:31 0:31 0:31 0:31 0:31 0:31 0:31 1:31",
        "+0 0:0 0:0 0:0 0:0 1:0 0:0 0:0 0:0",
        "+29 +3 0:3 0:3 0:3 0:29 0:29 0:29 0:3",
        // one that is enrolled meanwhile, and one that is removed
        "+2 +20 0:2 0:2 0:2 +10 0:10 1:20",
        "+2 +20 0:2 0:2 0:2 +1 0:20 1:1",
        "+2 +10 +20 0:2 -10 0:2 0:2 0:20",
        "+2 +10 0:2 -10 0:2 0:2 0:2 0:2",
    ])
}

/// All 32 and none answers; so it is from any of them on, once the ones below have answered.
fn all_silent() -> Vec<Op> {
    let from = |start: u64| {
        let answering = words(start, |i| format!("1:{i}"));
        let silent = words(96, |i| format!("{}:{}", (i == 0) as u64, (start + i / 3) % 32));
        fresh(enrolled(32) + &answering + &silent)
    };
    let silent = fresh(enrolled(32) + &words(96, |i| format!("0:{}", i / 3)));
    [silent, from(1), from(20), from(31)].concat()
}

// "Removing the one in turn passes the turn at the next tick, whose answer is ignored, even if it is enrolled again first."

fn removed_in_turn() -> Vec<Op> {
    each_fresh(&[
        "+2 +6 +20 0:2 -2 0:6 0:6",
        "+2 +6 +20 0:2 -2 1:6 0:6",
        "+2 +6 +20 0:2 0:2 -2 0:6 0:6 0:6 0:20",
        "+2 +6 +20 0:2 0:2 0:2 -2 1:6 1:20 1:6",
        // the last one, and the only one
        "+2 +6 0:2 1:6 -6 0:2 0:2",
        "+6 0:6 -6 0:- 0:-",
        "+6 0:6 -6 1:- +6 1:6",
        // from its number on, whoever is enrolled meanwhile
        "+10 0:10 -10 +3 +20 0:20 1:3",
        "+10 0:10 -10 +3 +9 1:3 1:9",
        "+10 0:10 -10 +11 +10 -10 0:11",
        // one that is not in turn passes nothing
        "+2 +6 0:2 -6 +6 0:2 0:2 0:6",
        "+2 +6 +9 0:2 1:6 -2 0:6 0:6 0:9 -6 0:9 0:9 0:9",
    ])
}

fn enrolled_again() -> Vec<Op> {
    each_fresh(&[
        "+2 +6 +20 0:2 -2 +2 0:6 0:6",
        "+2 +6 +20 0:2 -2 +2 1:6 0:6",
        "+2 +6 +20 0:2 0:2 -2 +2 0:6 1:20 1:2 0:2",
        "+2 +6 +20 0:2 0:2 0:2 -2 +2 0:6 0:6 0:6 0:20",
        "+2 +6 0:2 1:6 -6 +6 0:2 0:2 0:2 0:6",
        // alone it is passed to itself, and has three tries
        "+6 0:6 -6 +6 0:6 0:6 0:6 0:6 0:6",
        "+6 0:6 0:6 -6 +6 1:6 0:6 0:6 0:6",
        // more than once, and behind the tick that passes
        "+2 +6 0:2 -2 +2 -2 +2 0:6",
        "+2 +6 0:2 -2 +2 -2 0:6 +2 0:6 0:6 0:2",
        "+2 +6 0:2 -2 0:6 +2 0:6 0:6 0:2 0:2",
        // all at once
        "+2 +6 0:2 1:6 -2 -6 +6 +2 0:2",
        "+2 +6 +9 0:2 -2 -6 -9 +9 +2 0:9",
    ])
}

/// It waits the longest: of 32, each other one is silent three times.
fn enrolled_again_among_all() -> Vec<Op> {
    let silent = words(93, |i| format!("0:{}", (1 + i / 3) % 32));
    fresh(enrolled(32) + "0:0 -0 +0 " + &silent + "0:0 0:0 0:0 0:1")
}

// "After an accepted tick that polled nobody, the lowest enrolled number comes first again."

fn after_nobody() -> Vec<Op> {
    each_fresh(&[
        "+9 0:9 -9 0:- +20 +3 0:3 1:20",
        "+9 0:9 -9 1:- 0:- 1:- +20 +3 1:3 1:20",
        "+31 1:31 -31 1:- +31 +0 1:0 1:31 1:0",
        // with no tick between, or none that is accepted, the turn passes from the one removed
        "+9 0:9 -9 +20 +3 0:20 1:3",
        "+9 0:9 -9 2!18 +20 +3 0:20 1:3",
        "+9 0:9 -9 0:- 2!18 +20 +3 1:3 1:20",
        "+9 +12 0:9 -9 -12 +3 +30 0:30",
    ])
}

// "On a desk used since it was fresh, while enrolment is unchanged, every enrolled cabinet is polled within 96 accepted ticks."

/// So many enrolled, none of which answers, then all; with calls between that change nothing.
fn waits() -> Vec<Op> {
    let of_first = |many: u64| {
        let silent = words(6 * many, |i| format!("0:{}", i / 3 % many));
        let repeating = words(3 * many, |i| format!("+{} -31 +32!18 2!18 0:{}", i % many, i / 3));
        let answering = words(2 * many + 1, |i| format!("1:{}", i % many));
        fresh(enrolled(many) + &silent + &repeating + &answering)
    };
    [2, 3, 5, 31].into_iter().flat_map(of_first).collect()
}

// "18: cabinet number above 31, or an answer above 1, an ignored one too. Refused, the desk is unchanged and nobody is polled."

const BAD_CABINETS: [u64; 7] = [32, 255, 256, 1 << 16, 1 << 32, (1 << 32) + 5, u64::MAX];
const BAD_ANSWERS: [u64; 7] = [2, 255, 256, 257, 1 << 32, (1 << 32) + 1, u64::MAX];

fn bad_cabinets() -> Vec<Op> {
    let refused: String = BAD_CABINETS.iter().map(|cabinet| format!("+{cabinet}!18 -{cabinet}!18 ")).collect();
    [
        fresh(format!("{refused} 0:- {refused}")),
        fresh(format!("+0 +5 +31 {refused} 0:0 {refused} 0:0 {refused} 0:0 {refused} 0:5 {refused} 1:31")),
        fresh(enrolled(32) + &refused + "0:0 -0 " + &refused + "0:1"),
    ]
    .concat()
}

fn bad_answers() -> Vec<Op> {
    let refused: String = BAD_ANSWERS.iter().map(|answer| format!("{answer}!18 ")).collect();
    [
        // nobody was polled
        fresh(format!("{refused} 0:- {refused} +5 +9 {refused} 0:5")),
        fresh(format!("+5 0:5 -5 0:- {refused} +9 +3 {refused} 0:3")),
        // somebody was: once, twice, three times
        fresh(format!("+5 +9 0:5 {refused} 0:5 {refused} 0:5 {refused} 0:9 {refused} 1:5")),
        // and was removed, also enrolled again
        fresh(format!("+5 +9 0:5 -5 {refused} 0:9")),
        fresh(format!("+5 +9 0:5 -5 +5 {refused} 0:9 {refused} -9 {refused} +9 {refused} 1:5")),
        fresh(format!("+5 0:5 -5 {refused} 0:- {refused}")),
    ]
    .concat()
}

// Given desks. "Order: 13 for a desk whose turn is above 31 or whose tries exceed 3, then 18."

fn given_by_hand() -> Vec<Op> {
    [
        // the one in turn is not enrolled
        given(5, 1, &[9], "0:9 0:9"),
        given(5, 2, &[3], "0:3"),
        given(5, 3, &[3, 31], "1:31"),
        given(5, 1, &[], "0:- 0:-"),
        given(5, 1, &[9], "-5 +5 0:5"),
        // nobody was polled, and the turn counts for nothing
        given(20, 0, &[3, 25], "0:3"),
        given(20, 0, &[20, 25], "-20 +20 0:20 0:20 0:20 0:25"),
        given(31, 0, &[], "1:- +31 +30 1:30"),
        // 13, and 13 before 18
        given(32, 0, &[0, 5], "0!13 +5!13 -5!13 2!13 +32!13 -32!13"),
        given(0, 4, &[0, 5], "1!13 +6!13 -0!13 2!13 +32!13 -32!13"),
        given(255, 255, &[31], "0!13 +31!13 -31!13 18446744073709551615!13"),
        given(31, 3, &[31], "2!18 +32!18 -32!18 0:31 0:31"),
    ]
    .concat()
}

/// Who is enrolled on a desk of the grid. A turn above 31 stands for the cabinet that its five low bits are.
fn masks(turn: u8) -> [u32; 5] {
    let own = 1 << (turn % 32);
    [0, own, ALL - own, ALL, 1 | 1 << 31]
}

/// The runs of calls that each desk of the grid has.
fn grid_calls(turn: u8) -> Vec<Vec<Call>> {
    let (own, other) = (turn as u64, (turn as u64 + 7) % 32);
    vec![
        vec![Call::Enrol(own)],
        vec![Call::Enrol(other)],
        vec![Call::Remove(own)],
        vec![Call::Remove(other)],
        vec![Call::Remove(own), Call::Enrol(own), Call::Tick(1)],
        vec![Call::Tick(0)],
        vec![Call::Tick(1)],
        vec![Call::Tick(2)],
        vec![Call::Enrol(32)],
        vec![Call::Remove(32)],
    ]
}

fn grid() -> Vec<Op> {
    let mut out = Vec::new();
    for turn in [0, 1, 5, 30, 31, 32, 33, 255] {
        for tries in [0, 1, 2, 3, 4, 255] {
            for mask in masks(turn) {
                for calls in grid_calls(turn) {
                    out.push(Op::Given(Desk::of(mask, turn, tries)));
                    out.extend(calls.into_iter().map(Op::Call));
                }
            }
        }
    }
    out
}

pub fn cases() -> Vec<Vec<u8>> {
    let enrolling = [each_cabinet(), repeated(), one_or_nobody(), first_turn()].concat();
    let polling = [answers(), answered(), all_answering(), silent(), all_silent()].concat();
    let removing = [removed_in_turn(), enrolled_again(), enrolled_again_among_all(), after_nobody(), waits()].concat();
    let refused = [bad_cabinets(), bad_answers(), given_by_hand(), grid()].concat();
    let random = random_desk::since_fresh(SEED, RANDOM_CALLS);
    let ops = [enrolling, polling, removing, refused, random].concat();
    let cases: Vec<Vec<u8>> = ops.iter().map(Op::bytes).collect();
    assert_eq!(desk_run::lacking(&cases), [""; 0], "kinds that the stored cases lack");
    cases
}
