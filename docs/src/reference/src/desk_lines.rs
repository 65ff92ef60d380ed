//! The stored lines of `crates/polling_desk`, each with its answer as one finds it by hand; the program's rules are held to it.

use crate::polling_desk::{self, LONGEST};
use crate::tally::Tally;

/// A line without its newline, what it is answered, and what is explained of it, but for the line's number.
struct Line {
    line: Vec<u8>,
    answer: Option<String>,
    explanation: Option<String>,
}

fn said(line: impl AsRef<[u8]>, answer: &str) -> Line {
    Line { line: line.as_ref().to_vec(), answer: Some(answer.to_string()), explanation: None }
}

fn each_said(lines: &[(&str, &str)]) -> Vec<Line> {
    lines.iter().map(|(line, answer)| said(line, answer)).collect()
}

fn no_call(line: impl AsRef<[u8]>) -> Line {
    Line { line: line.as_ref().to_vec(), answer: None, explanation: None }
}

/// A word, the digits of a number that is refused, and the end of the line.
fn refused(word: &str, digits: &str, end: &str) -> Line {
    let (what, allowed) = if word == "tick" { ("answer", "0-1") } else { ("cabinet", "0-31") };
    let explanation = format!("bad number: {what} {digits}, allowed {allowed}");
    Line { explanation: Some(explanation), ..said(format!("{word} {digits}{end}"), "refused 18") }
}

// Calls.

/// Each answer; the desk has 4 and 31 enrolled at the end, and 4 was polled.
fn calls() -> Vec<Line> {
    each_said(&[
        ("tick 0", "poll nobody"),
        ("tick 1", "poll nobody"),
        ("enrol 31", "enrolled 31"),
        ("enrol 0", "enrolled 0"),
        ("remove 0", "removed 0"),
        ("enrol 0", "enrolled 0"),
        ("enrol 4", "enrolled 4"),
        ("enrol 4", "enrolled 4"),
        ("tick 1", "poll 0"),
        ("tick 0", "poll 0"),
        ("tick 0", "poll 0"),
        ("tick 0", "poll 4"),
        ("tick 1", "poll 31"),
        ("tick 1", "poll 0"),
        ("remove 0", "removed 0"),
        ("remove 0", "removed 0"),
        ("enrol 0", "enrolled 0"),
        ("tick 0", "poll 4"),
        ("remove 0", "removed 0"),
        ("remove 17", "removed 17"),
        ("tick 0", "poll 4"),
    ])
}

/// Zeros before a number, blanks behind it and a carriage return.
fn ends() -> Vec<Line> {
    each_said(&[
        ("tick 0\r", "poll 4"),
        ("tick 0 ", "poll 31"),
        ("tick 1 \r", "poll 4"),
        ("tick 1    ", "poll 31"),
        ("tick 1    \r", "poll 4"),
        ("tick 00", "poll 4"),
        ("tick 01", "poll 31"),
        ("tick 0000000000000000000000000000000000000000000001", "poll 4"),
        ("tick 0000000000000000000000000000000000000000000000 \r", "poll 4"),
        ("enrol 05", "enrolled 5"),
        ("enrol 00005   ", "enrolled 5"),
        ("enrol 031\r", "enrolled 31"),
        ("remove 000000000000000000005", "removed 5"),
        ("remove 5 \r", "removed 5"),
        ("enrol 000", "enrolled 0"),
        ("remove 00", "removed 0"),
        ("tick 1", "poll 31"),
    ])
}

// Refused numbers.

fn refusals() -> Vec<Line> {
    let nines = "9".repeat(100);
    let zeros = "0".repeat(100);
    let cabinets = ["32", "33", "99", "100", "255", "256", "287", "65536", "65541", "4294967296", "4294967301"];
    // about 2^64, and 2^128 + 5
    let large = ["18446744073709551615", "18446744073709551616", "18446744073709551621", "340282366920938463463374607431768211461", &nines];
    let answers = ["2", "3", "10", "11", "255", "256", "257", "65537", "4294967296", "4294967297"];
    // 2^64 - 1 to 2^64 + 1
    let large_answers = ["18446744073709551615", "18446744073709551616", "18446744073709551617", &nines];
    let mut out: Vec<Line> = cabinets.iter().chain(&large).map(|digits| refused("enrol", digits, "")).collect();
    out.extend(cabinets.iter().take(3).chain(&large[..4]).map(|digits| refused("remove", digits, "")));
    out.extend(answers.iter().chain(&large_answers).map(|digits| refused("tick", digits, "")));
    out.extend([
        refused("enrol", "032", " \r"),
        refused("remove", "0000256", "  "),
        refused("tick", "002", "\r"),
        refused("enrol", &format!("{zeros}32"), ""),
        refused("tick", &format!("{zeros}10"), " "),
        // none of all this has changed the desk
        said("tick 0", "poll 31"),
        said("tick 0", "poll 31"),
        refused("tick", "2", ""),
        said("tick 0", "poll 4"),
        // an answer that is ignored: the one in turn was removed, or nobody was polled
        said("remove 4", "removed 4"),
        refused("tick", "2", ""),
        said("tick 0", "poll 31"),
        said("remove 31", "removed 31"),
        said("tick 0", "poll nobody"),
        refused("tick", "2", ""),
        refused("tick", "18446744073709551616", ""),
        said("enrol 9", "enrolled 9"),
        said("enrol 3", "enrolled 3"),
        said("tick 1", "poll 3"),
    ]);
    out
}

// Lines that are no call.

/// Of each kind some: words, blanks, numbers, ends, bytes.
pub const NO_CALLS: [&[u8]; 68] = [
    // no word, or another
    b"", b" ", b"   ", b"\r", b" \r", b"\t", b"5", b"0 1", b"enroll 5", b"enro 5", b"removed 5", b"ticks 1", b"poll 5", b"help", b"--help",
    b"# enrol 5", b"\0",
    // upper case
    b"Enrol 5", b"ENROL 5", b"eNrol 5", b"Remove 5", b"TICK 1",
    // a word alone, or with no blank, or with more than one
    b"enrol", b"enrol ", b"enrol  ", b"remove", b"tick", b"tick \r", b"enrol5", b"tick1", b"enrol  5", b"tick   1",
    // a blank in front, tabs, another blank
    b" enrol 5", b"  tick 1", b"\ttick 1", b"enrol\t5", b"enrol 5\t", b"enrol \t5", b"tick 1\x0b", b"enrol\xc2\xa05",
    // what is no number
    b"enrol five", b"enrol -1", b"enrol -0", b"enrol +5", b"enrol 5.0", b"enrol 5,", b"enrol 0x5", b"enrol 1e1", b"enrol 5a", b"enrol a5",
    b"enrol 1_0", b"tick yes", b"tick ?", b"enrol 5\0", b"enrol \xd9\xa3", b"enrol 5\xff", b"\xef\xbb\xbfenrol 5",
    // more than one number or call
    b"enrol 5 6", b"tick 1 1", b"enrol 5 x", b"enrol 5 enrol 6", b"tick 1;",
    // carriage returns
    b"enrol 5\r\r", b"enrol 5\r ", b"enrol 5 \r ", b"enrol\r 5", b"\renrol 5", b"tick \r1",
];

/// None of them changes the desk.
fn no_calls() -> Vec<Line> {
    let mut out: Vec<Line> = NO_CALLS.iter().map(no_call).collect();
    out.extend(each_said(&[("tick 0", "poll 3"), ("tick 0", "poll 3"), ("tick 0", "poll 9")]));
    out
}

// Long lines.

/// A line of so many bytes: its start, as many of a letter as it takes, and its end.
fn long(length: usize, start: &str, filling: &str, end: &str) -> String {
    let line = start.to_string() + &filling.repeat(length - start.len() - end.len()) + end;
    assert_eq!(line.len(), length);
    line
}

fn long_lines() -> Vec<Line> {
    let nines = "9".repeat(LONGEST - "enrol ".len());
    vec![
        said(long(LONGEST, "enrol ", "0", "7"), "enrolled 7"),
        said(long(LONGEST, "tick 1", " ", ""), "poll 3"),
        said(long(LONGEST, "tick 1", " ", "\r"), "poll 7"),
        said(long(LONGEST, "tick ", "0", "1 \r"), "poll 9"),
        said(long(LONGEST, "remove ", "0", "7\r"), "removed 7"),
        said(long(LONGEST - 1, "tick ", "0", ""), "poll 9"),
        refused("enrol", &nines, ""),
        refused("tick", &nines, " "),
        refused("remove", &long(LONGEST - "remove ".len(), "", "0", "32"), ""),
        // a byte more, the carriage return too
        no_call(long(LONGEST + 1, "enrol ", "0", "8")),
        no_call(long(LONGEST + 1, "tick 1", " ", "")),
        no_call(long(LONGEST + 1, "tick 1", " ", "\r")),
        no_call(long(LONGEST + 1, "enrol ", "9", "")),
        no_call(long(LONGEST, "tick 1 ", "1", "")),
        no_call(long(LONGEST, "", " ", "")),
        // much longer, with a call at its start, at its end and behind the 4096th byte
        no_call(long(9000, "enrol ", "0", "8")),
        no_call(long(9000, "tick 1", " ", "")),
        no_call(long(9000, "tick 1", " ", "tick 1")),
        no_call(long(LONGEST, "tick 1", " ", "") + "tick 1"),
        no_call(long(9000, "", "x", "")),
        no_call(long(70_000, "tick ", "1", "\r")),
        said("tick 0", "poll 9"),
        said("tick 0", "poll 3"),
    ]
}

// All of them.

/// What is written of these lines, as it was found by hand.
fn hold(lines: &[Line], input: &[u8]) {
    let tally = &mut Tally::default();
    let said = polling_desk::print(input, tally);
    let (mut output, mut explanation) = (String::new(), String::new());
    for (k, line) in (1..).zip(lines) {
        output += &match &line.answer {
            Some(answer) => format!("{answer}\n"),
            None => format!("line {k} is no call: enrol N, remove N or tick A wanted\n"),
        };
        explanation += &line.explanation.as_ref().map_or(String::new(), |what| format!("{what} (line {k})\n"));
    }
    for ((k, given), wanted) in (1..).zip(said.output.lines()).zip(output.lines()) {
        assert_eq!(given, wanted, "the answer of line {k}");
    }
    assert_eq!((said.output, said.explanation), (output, explanation));
    let tally = tally.print();
    assert!(tally.lines().count() == 4 && !tally.lines().any(|line| line.starts_with("0 ")), "a kind that the stored lines lack: {tally}");
}

/// The last line lacks its newline.
pub fn input() -> Vec<u8> {
    let mut lines: Vec<Line> = [calls(), ends(), refusals(), no_calls(), long_lines()].into_iter().flatten().collect();
    lines.push(said("tick 1", "poll 9"));
    let input: Vec<&[u8]> = lines.iter().map(|line| &line.line[..]).collect();
    let input = input.join(&b'\n');
    hold(&lines, &input);
    input
}
