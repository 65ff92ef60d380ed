//! Why a tick is refused, in words: the first of its numbers, in the line's order, that is out of range.

use crate::calendar::month_length;
use crate::text;
use crate::tick::Input;
use crate::wanted::Command;

/// A number of a tick: its name, its value, and the range that it has there.
struct Number {
    name: String,
    value: u32,
    low: u32,
    high: u32,
}

fn number(name: &str, value: u32, (low, high): (u32, u32)) -> Number {
    Number { name: name.to_string(), value, low, high }
}

/// The day's range is that of the month, once year and month are in range.
fn clock(input: &Input) -> Vec<Number> {
    let date = input.clock.date;
    let days = month_length(date.year, date.month) as u32;
    vec![
        number("year", date.year as u32, (2000, 2099)),
        number("month", date.month as u32, (1, 12)),
        number("day", date.day as u32, (1, days)),
        number("tenth", input.clock.tenth, (0, 863_999)),
    ]
}

fn samples(input: &Input, (n, m): (usize, usize)) -> Vec<Number> {
    let mut out = Vec::new();
    for i in 0..n {
        for (name, value) in [("demand", input.demand[i]), ("passage", input.passage[i])] {
            out.push(number(&format!("metered lane {}, {name}", i + 1), value as u32, (0, 1)));
        }
    }
    for (j, s) in input.mainline[..m].iter().enumerate() {
        // every time is in range
        let numbers = [("working", s.working, 1), ("occupied", s.occupied, 100), ("vehicles", s.vehicles, 1), ("time", s.time, 65535)];
        for (name, value, most) in numbers {
            out.push(number(&format!("mainline lane {}, {name}", j + 1), value as u32, (0, most)));
        }
    }
    for (name, value) in [("preemption", input.preemption), ("bypass", input.bypass)] {
        out.push(number(name, value as u32, (0, 1)));
    }
    out
}

/// Fixed and responsive have a rate, responsive has a table.
fn command(who: &str, c: &Command) -> [Number; 3] {
    let rates = if c.kind == 3 || c.kind == 4 { (150, 1800) } else { (0, 0) };
    let tables = if c.kind == 4 { (1, 4) } else { (0, 0) };
    [("kind", c.kind, (0, 4)), ("rate", c.rate, rates), ("table", c.table, tables)]
        .map(|(name, value, range)| number(&format!("{who}, {name}"), value as u32, range))
}

/// The numbers that a refusal is about.
fn numbers(refusal: u8, input: &Input, lanes: (usize, usize)) -> Vec<Number> {
    match refusal {
        8 => clock(input),
        9 => samples(input, lanes),
        10 => ["manual", "communications"].iter().zip(&input.commands).flat_map(|(who, c)| command(who, c)).collect(),
        _ => unreachable!("a tick of replay is refused with 8, 9 or 10"),
    }
}

/// The line that explains why the tick of line `line` is refused, at a site of so many metered and mainline lanes.
pub fn line(refusal: u8, input: &Input, lanes: (usize, usize), line: usize) -> String {
    let out_of_range = |x: &Number| x.value < x.low || x.high < x.value;
    let bad = numbers(refusal, input, lanes).into_iter().find(out_of_range).expect("a number out of range");
    let what = format!("{} {}, allowed {}", bad.name, bad.value, text::range(bad.low, bad.high));
    text::explanation(refusal, &what, &format!("line {line}"))
}
