//! A case of `crates/join_cases`, two plan lists of any numbers with a year and its holidays, and what the program prints of it.

use crate::joining::{begins, covers, dropped, join, Entry, List, MOST, ROOM};
use crate::joining_claim;
use crate::joining_year;
use crate::site::holiday_ok;
use crate::tally::Tally;

/// How many numbers a case has: two lists with their counts, the year, the count of holidays and room for them.
const NUMBERS: usize = 2 * (1 + ROOM) + 2 + ROOM;

#[derive(Clone)]
pub struct Case {
    pub first: List,
    pub second: List,
    pub year: u16,
    pub holidays: Vec<[u16; 5]>,
}

impl Case {
    pub fn bytes(&self) -> Vec<u8> {
        let Case { first, second, year, holidays } = self;
        assert!(holidays.len() <= MOST && holidays.iter().all(|row| (0..5).all(|i| holiday_ok(row, i))));
        let lists = [&[first.count], &first.numbers[..], &[second.count], &second.numbers].concat();
        let mut numbers = [lists, vec![*year, holidays.len() as u16], holidays.concat()].concat();
        numbers.resize(NUMBERS, 0);
        numbers.into_iter().flat_map(u16::to_be_bytes).collect()
    }

    /// A case that is shorter counts as if zeros stood behind it.
    fn of(bytes: &[u8]) -> Case {
        let mut numbers: Vec<u16> = bytes.chunks_exact(2).map(|two| u16::from_be_bytes([two[0], two[1]])).collect();
        numbers.resize(NUMBERS, 0);
        let (first, rest) = numbers.split_at(1 + ROOM);
        let (second, rest) = rest.split_at(1 + ROOM);
        let list = |numbers: &[u16]| List { count: numbers[0], numbers: numbers[1..].to_vec() };
        let holidays = rest[2..].chunks(5).take(rest[1] as usize).map(|row| row.try_into().expect("five numbers"));
        Case { first: list(first), second: list(second), year: rest[0], holidays: holidays.collect() }
    }
}

// What is counted.

fn count_kept(entry: &Entry, second: &[Entry], tally: &mut Tally) {
    let own = begins(entry);
    let some = second.iter().any(|by| !begins(by).is_disjoint(&own));
    let pairs = second.iter().enumerate().flat_map(|(i, one)| second[i + 1..].iter().map(move |other| (one, other)));
    let two = pairs.into_iter().any(|(one, other)| own.is_subset(&(&begins(one) | &begins(other))));
    tally.count("entries kept though some of their days are covered", some as u64);
    tally.count("entries kept though two entries cover them together", two as u64);
}

fn count_accepted(first: &[Entry], second: &[Entry], joined: &[Entry], tally: &mut Tally) {
    let dropped = dropped(first, second);
    joining_claim::hold_dropped(first, second, &dropped);
    tally.count("joins accepted", 1);
    let drops = match dropped.len() {
        0 => "joins that drop nothing",
        1 => "joins that drop one",
        _ => "joins that drop several",
    };
    tally.count(drops, 1);
    for (place, entry) in (1..).zip(first) {
        if dropped.contains_key(&place) {
            let many = second.iter().filter(|by| covers(by, entry)).count();
            tally.count("entries covered by more than one entry", (many > 1) as u64);
        } else {
            count_kept(entry, second, tally);
        }
    }
    let full = joined.len() == MOST;
    tally.count("joins of exactly 16 entries", full as u64);
    tally.count("joins of 16 entries that drop some", (full && !dropped.is_empty()) as u64);
}

fn count_refused(first: Option<Vec<Entry>>, second: Option<Vec<Entry>>, tally: &mut Tally) {
    match (first, second) {
        (None, Some(_)) => tally.count("joins refused with 14 for the first list", 1),
        (Some(_), None) => tally.count("joins refused with 14 for the second list", 1),
        (None, None) => tally.count("joins refused with 14 for both lists", 1),
        (Some(first), Some(second)) => {
            tally.count("joins refused with 17", 1);
            tally.count("joins refused with 17 that would drop some", !dropped(&first, &second).is_empty() as u64);
        }
    }
}

// What is printed.

fn line(name: &str, list: &List) -> String {
    let numbers: String = list.numbers.iter().map(|number| format!(" {number}")).collect();
    format!("{name} {}{numbers}\n", list.count)
}

/// The line of the year, which is worked out from both lists laid end to end.
fn year_line(case: &Case, lists: [&[Entry]; 2], joined: &[Entry], tally: &mut Tally) -> String {
    let year = joining_year::year(lists, joined, (case.year, &case.holidays), tally);
    format!("year {} checks {} digest {}\n", case.year, year.checks, year.digest)
}

/// The lines of a case. The answer is held to the words of the page.
pub fn answer(case: &[u8], tally: &mut Tally) -> String {
    let case = Case::of(case);
    let Case { first, second, .. } = &case;
    let joined = join(first, second);
    joining_claim::hold(first, second, &joined);
    let (refusal, list) = joined;
    let lines = line(&format!("joined {refusal}"), &list) + &line("first", first) + &line("second", second);
    match (refusal, first.entries(), second.entries(), list.entries()) {
        (0, Some(first), Some(second), Some(joined)) => {
            count_accepted(&first, &second, &joined, tally);
            lines + &year_line(&case, [&first, &second], &joined, tally)
        }
        (_, first, second, _) => {
            count_refused(first, second, tally);
            lines
        }
    }
}
