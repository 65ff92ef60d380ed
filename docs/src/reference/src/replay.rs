//! What the replay program prints: a site, and ticks as lines of numbers.

use crate::bypass_watch;
use crate::diagnosis;
use crate::periods::halves;
use crate::preemption;
use crate::row;
use crate::site::{self, Site};
use crate::speed_text;
use crate::speed_watch;
use crate::tally::InForce;
use crate::text;
use crate::tick::{poll_record, power_up, readings, tick, Answer, Input};
use crate::tick_diagnosis;
use crate::wanted::{half_goes_up, lanes};

/// What a run writes: on standard output, and on standard error the line that explains what was refused, if anything was. With its calls,
/// how many of its ticks have a cycle that is a half going up, and what entries were in force.
#[derive(Default)]
pub struct Replayed {
    pub output: String,
    pub explanation: String,
    pub preemptions: preemption::Watch,
    pub bypasses: bypass_watch::Watch,
    pub speeds: speed_watch::Watch,
    pub halves: u64,
    pub in_force: InForce,
}

const HEADING: &str = "tick refusal interval age lanes lower sign day entry source level wish rate cycle released bypass\n";

// A line of input.

/// The line without what belongs to its end: one carriage return, and before it blanks.
fn without_end(line: &[u8]) -> &[u8] {
    let mut line = line.strip_suffix(b"\r").unwrap_or(line);
    while let Some(shorter) = line.strip_suffix(b" ") {
        line = shorter;
    }
    line
}

/// The words of a line, between blanks; with nothing in it, none.
fn words(line: &[u8]) -> Vec<&[u8]> {
    let line = without_end(line);
    if line.is_empty() {
        return Vec::new();
    }
    line.split(|b| *b == b' ').collect()
}

/// Whether a number of digits alone, of any length, is above another: the longer one is, and of two as long the later in a lexicon.
fn is_above(digits: &[u8], most: &str) -> bool {
    let zeros = digits.iter().take_while(|b| **b == b'0').count();
    let digits = &digits[zeros..];
    (digits.len(), digits) > (most.len(), most.as_bytes())
}

/// Word i of a line, from 1, as a number; or why it is none.
fn number(i: usize, word: &[u8]) -> Result<u32, String> {
    // the tenth alone may be long
    let most = if i == 4 { "4294967295" } else { "65535" };
    if word.is_empty() {
        return Err(format!("word {i} is empty"));
    }
    if !word.iter().all(u8::is_ascii_digit) {
        return Err(format!("word {i} is no number"));
    }
    if is_above(word, most) {
        return Err(format!("word {i} is above {most}"));
    }
    Ok(std::str::from_utf8(word).unwrap().parse().unwrap())
}

/// The tick of a line, or why it is none: clock, demand and passage of each lane, the mainline lanes' samples, preemption and bypass, two
/// commands.
pub fn input(site: &Site, line: &[u8]) -> Result<Input, String> {
    let (n, m) = lanes(site);
    let numbers = words(line).into_iter().enumerate().map(|(i, word)| number(i + 1, word)).collect::<Result<Vec<u32>, String>>()?;
    // the tenth is one number of the line, and two of the row
    let wanted = row::size(n, m) - 1;
    if numbers.len() != wanted {
        return Err(format!("{} numbers, {wanted} wanted", numbers.len()));
    }
    let [high, low] = halves(numbers[3]);
    let words: Vec<u16> = numbers.iter().map(|n| *n as u16).collect();
    let row = [&words[..3], &[high, low], &words[4..]].concat();
    Ok(row::input(&row, n, m))
}

// A line of output.

fn decided(a: &Answer) -> String {
    if a.refusal != 0 {
        return "- - - - - - - - -".to_string();
    }
    format!("{} {} {} {}", text::decision(&a.decision), a.cycle, a.released, a.bypass.word())
}

/// The tick's line; where a period was completed, also the poll record's and that of the mainline lanes' readings.
fn tick_lines(site: &Site, number: usize, a: &Answer) -> String {
    let ((n, m), s) = (lanes(site), &a.state);
    let line = format!("{number} {} {} {} {} {}\n", a.refusal, s.interval, s.age, text::lamps(&a.indications, n), decided(a));
    if a.refusal != 0 || !s.periods.just_closed() {
        return line;
    }
    let record = poll_record(Some(site), s).expect("a period was completed");
    let readings = readings(Some(site), s).expect("a period was completed");
    format!("{line}poll {}\n{}", text::hex(&record), speed_text::line(&readings[..m]))
}

/// The lines of a text; a last one may lack its newline.
fn lines(text: &[u8]) -> Vec<&[u8]> {
    let mut lines: Vec<&[u8]> = text.split(|b| *b == b'\n').collect();
    // behind the last newline there is no line
    if lines.last().is_some_and(|line| line.is_empty()) {
        lines.pop();
    }
    lines
}

/// What a run at a site writes.
fn run(site: &Site, text: &[u8]) -> Replayed {
    let (_, mut state) = power_up(Some(site));
    let mut said = Replayed { output: HEADING.to_string(), ..Replayed::default() };
    for (i, line) in lines(text).into_iter().enumerate() {
        let input = match input(site, line) {
            Ok(input) => input,
            Err(why) => {
                said.output += &format!("line {} is no tick: {why}\n", i + 1);
                break;
            }
        };
        let answer = tick(Some(site), &state, &input);
        said.output += &tick_lines(site, i + 1, &answer);
        // the first refused tick alone is explained
        if answer.refusal != 0 && said.explanation.is_empty() {
            said.explanation = tick_diagnosis::line(answer.refusal, &input, lanes(site), i + 1);
        }
        if answer.refusal == 0 {
            said.preemptions.tick(site, input.preemption, answer.state.interval);
            let now = bypass_watch::Tick { site, before: &state, input: &input, answer: &answer };
            said.bypasses.tick(now, true);
            said.speeds.tick(now);
            said.speeds.readings(readings(Some(site), &answer.state));
        }
        said.halves += half_goes_up(site, answer.decision.wish) as u64;
        said.in_force.note(&site.holidays, input.clock, &answer.decision);
        state = answer.state;
    }
    said
}

/// What the program writes of a site file of that name, and ticks.
pub fn print(file: &[u8], name: &str, text: &[u8]) -> Replayed {
    match site::read(file) {
        Ok(site) => run(&site, text),
        Err(refused) => {
            Replayed { output: text::refusal(refused), explanation: diagnosis::of(file, name), ..Replayed::default() }
        }
    }
}
