//! What `crates/calendar_check` prints: how many dates, days and rows it tries, and how many of the rows name a day, over every day of 2000
//! to 2099. What each row names is held to the page, in other words than the calendar's: the calendar goes from a day to a row, and here it
//! is from the row to its day in each year.

use crate::calendar::{day_before, day_type, days, has_moved_to, is_holiday, shifted, weekday, Date, HOLIDAY, SUNDAY};
use crate::site::days_in;

/// Those dates that the program tries and that are none; how many these are is its own affair, and taken from there.
const NO_DATES: usize = 5_580;

/// How many rows of the list count; it has fewer than the most.
const COUNTS: std::ops::RangeInclusive<usize> = 0..=16;

/// The manual's holidays and 29 February. Here New Year's Day, 31 March and 29 February move.
const LIST: [[u16; 5]; 12] = [
    [1, 1, 1, 0, 1],
    [2, 1, 3, 1, 0],
    [2, 2, 3, 1, 0],
    [1, 3, 31, 0, 1],
    [2, 5, 5, 1, 0],
    [1, 7, 4, 0, 0],
    [2, 9, 1, 1, 0],
    [1, 11, 11, 0, 0],
    [2, 11, 4, 4, 0],
    [3, 11, 4, 4, 0],
    [1, 12, 25, 0, 0],
    [1, 2, 29, 0, 1],
];

// Rows.

/// Of each month 35 days, the last four of which no month has.
fn fixed(moves: u16) -> Vec<[u16; 5]> {
    (1..=12).flat_map(|month| (1..=35).map(move |day| [1, month, day, 0, moves])).collect()
}

/// Of each month five weeks of seven weekdays.
fn floating(kind: u16) -> Vec<[u16; 5]> {
    let weeks = |month| (1..=5).flat_map(move |week| (0..7).map(move |weekday| [kind, month, week, weekday, 0]));
    (1..=12).flat_map(weeks).collect()
}

// What the page says.

/// The days of a month in their order; of 1999 those of December alone.
fn of_month(year: u16, month: u16) -> Vec<Date> {
    let begins = days().partition_point(|(date, _)| (date.year, date.month) < (year, month));
    days()[begins..].iter().map(|(date, _)| *date).take_while(|date| (date.year, date.month) == (year, month)).collect()
}

/// The one day that the row names for a year, if the month has it. "The move may cross a month or a year", and so may the day after.
fn named_for(year: u16, row: &[u16; 5]) -> Option<Date> {
    let [kind, month, third, of_week, moves] = *row;
    let mut days = of_month(year, month);
    if kind != 1 {
        days.retain(|date| weekday(*date) == of_week);
        // the final one comes last, wherever that is
        if third == 5 {
            days.reverse();
        }
    }
    let place = if kind != 1 && third == 5 { 1 } else { third };
    let date = *days.get(place as usize - 1)?;
    let next = kind == 3 || (moves == 1 && weekday(date) == SUNDAY);
    shifted(date, next as i32)
}

/// All days that it names, from 1 January 2000 on; that of 31 December 1999 may be one of them.
fn named(row: &[u16; 5]) -> Vec<Date> {
    (1999..2100).filter_map(|year| named_for(year, row)).filter(|date| date.year >= 2000).collect()
}

/// In how many of the hundred years there is that day of the month: one day is named in each of them, whether it moves or not.
fn years_with(month: u16, day: u16) -> usize {
    match (month, day) {
        (2, 29) => 25,
        _ if day <= days_in(month) => 100,
        _ => 0,
    }
}

// Every day.

fn century() -> Vec<Date> {
    days().iter().map(|(date, _)| *date).filter(|date| date.year >= 2000).collect()
}

/// How many pairs of a day and a row, or a count, were asked for, and how many are a holiday.
#[derive(Default)]
struct Found {
    asked: usize,
    holidays: usize,
}

impl Found {
    fn add(&mut self, asked: usize, holidays: usize) {
        self.asked += asked;
        self.holidays += holidays;
    }
}

/// Each row on each day.
fn rows(century: &[Date], rows: &[[u16; 5]]) -> Found {
    let mut found = Found::default();
    for row in rows {
        let holidays: Vec<Date> = century.iter().copied().filter(|date| is_holiday(*date, row)).collect();
        assert!(holidays == named(row), "{row:?} names other days than the page says");
        assert!(row[0] != 1 || holidays.len() == years_with(row[1], row[2]), "{row:?} names no day, or two, in some year");
        found.add(century.len(), holidays.len());
    }
    found
}

/// How many of the dates that move have moved, over all days.
fn moved(century: &[Date], rows: &[[u16; 5]]) -> usize {
    let moved = |date: &Date| rows.iter().filter(|row| has_moved_to(*date, row)).count();
    century.iter().map(moved).sum()
}

/// The first rows of the list on each day, by each count; rows beyond the list name nothing.
fn lists(century: &[Date]) -> Found {
    let mut found = Found::default();
    for count in COUNTS {
        let list = &LIST[..count.min(LIST.len())];
        let holidays: Vec<Date> = century.iter().copied().filter(|date| day_type(*date, list) == HOLIDAY).collect();
        let mut days: Vec<Date> = list.iter().flat_map(named).collect();
        days.sort();
        days.dedup();
        assert!(holidays == days, "{count} rows of the list name other days than the page says");
        found.add(century.len(), holidays.len());
    }
    found
}

pub fn print() -> String {
    let century = century();
    let days_before = century.iter().filter(|date| shifted(day_before(**date), 1) == Some(**date)).count();
    let weekdays = century.iter().filter(|date| weekday(**date) == (weekday(day_before(**date)) + 1) % 7).count();
    let dates = format!("{} dates, {days_before} days before, {weekdays} weekdays", century.len() + NO_DATES);
    let moving = fixed(1);
    let moved = moved(&century, &moving);
    let of = |kind: Vec<[u16; 5]>| rows(&century, &kind);
    let found = [of(fixed(0)), of(moving), of(floating(2)), of(floating(3)), lists(&century)];
    let [f, m, g, a, l] = found.each_ref().map(|found| found.asked);
    let tried = format!("{f} fixed, {m} moving, {g} floating, {a} day after, {l} lists");
    let [f, m, g, a, l] = found.map(|found| found.holidays);
    let holidays = format!("{f} fixed, {m} moving, of them {moved} moved, {g} floating, {a} day after, {l} lists");
    format!("{dates}, {tried}: 0 differences\nholidays: {holidays}\n")
}
