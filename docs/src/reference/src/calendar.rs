//! 'Day and entry' of document 01, with the fixed dates that move of document 02: the days one after the other, their weekdays and the
//! holidays.

use std::sync::OnceLock;

pub const HOLIDAY: usize = 7;
pub const SUNDAY: u16 = 0;
/// Of a day.
pub const TENTHS: u32 = 864_000;

#[derive(Clone, Copy, Debug, PartialEq, Eq, PartialOrd, Ord)]
pub struct Date {
    pub year: u16,
    pub month: u16,
    pub day: u16,
}

#[derive(Clone, Copy, Debug, PartialEq)]
pub struct Clock {
    pub date: Date,
    pub tenth: u32,
}

/// Every fourth year from 2000 is leap; of 1999 only December is asked for.
pub fn month_length(year: u16, month: u16) -> u16 {
    match month {
        2 if year % 4 == 0 => 29,
        2 => 28,
        4 | 6 | 9 | 11 => 30,
        _ => 31,
    }
}

fn next_day(d: Date) -> Date {
    if d.day < month_length(d.year, d.month) {
        return Date { day: d.day + 1, ..d };
    }
    if d.month < 12 {
        return Date { month: d.month + 1, day: 1, ..d };
    }
    Date { year: d.year + 1, month: 1, day: 1 }
}

/// All days from 1 December 1999 to 31 December 2099 with their weekdays, Sunday 0.
pub fn days() -> &'static [(Date, u16)] {
    static DAYS: OnceLock<Vec<(Date, u16)>> = OnceLock::new();
    DAYS.get_or_init(walk)
}

/// From Saturday 1 January 2000 a day at a time, after December 1999, which ends on a Friday.
fn walk() -> Vec<(Date, u16)> {
    let mut days = Vec::new();
    let mut weekday = 5;
    for day in (1..=31).rev() {
        days.insert(0, (Date { year: 1999, month: 12, day }, weekday));
        weekday = if weekday == 0 { 6 } else { weekday - 1 };
    }
    let mut date = Date { year: 2000, month: 1, day: 1 };
    let mut weekday = 6;
    while date.year < 2100 {
        days.push((date, weekday));
        date = next_day(date);
        weekday = if weekday == 6 { 0 } else { weekday + 1 };
    }
    days
}

/// Where a date stands among all days, if it is one.
fn search(date: Date) -> Option<usize> {
    days().binary_search_by_key(&date, |(d, _)| *d).ok()
}

fn place(date: Date) -> usize {
    search(date).expect("a true date")
}

pub fn weekday(date: Date) -> u16 {
    days()[place(date)].1
}

pub fn day_before(date: Date) -> Date {
    days()[place(date) - 1].0
}

/// "It goes back seven days at most, and never before 1 January 2000": yesterday, the day before it and so on.
pub fn days_back(date: Date) -> impl Iterator<Item = Date> {
    let before = days()[..place(date)].iter().rev().map(|(d, _)| *d);
    before.take(7).take_while(|d| *d >= Date { year: 2000, month: 1, day: 1 })
}

/// The date so many days on, or back; none outside the walked days.
pub fn shifted(date: Date, by: i32) -> Option<Date> {
    let place = place(date) as i32 + by;
    days().get(usize::try_from(place).ok()?).map(|(d, _)| *d)
}

/// The clock so many ticks on, as a clock goes: after the last tenth of a day comes the first of the next. None after 2099.
pub fn later(clock: Clock, ticks: u32) -> Option<Clock> {
    let tenth = clock.tenth + ticks;
    Some(Clock { date: shifted(clock.date, (tenth / TENTHS) as i32)?, tenth: tenth % TENTHS })
}

/// The days of that month with that weekday, first to last.
pub fn such_days(year: u16, month: u16, weekday: u16) -> Vec<Date> {
    let first = place(Date { year, month, day: 1 });
    let of_month = days()[first..].iter().take_while(|(d, _)| d.month == month);
    of_month.filter(|(_, w)| *w == weekday).map(|(d, _)| *d).collect()
}

/// The date of that week and weekday in that month; week 5 means the final one.
fn floating(year: u16, month: u16, week: u16, weekday: u16) -> Date {
    let such = such_days(year, month, weekday);
    match week {
        5 => *such.last().unwrap(),
        _ => such[week as usize - 1],
    }
}

/// Asked for in the row's month alone: of 1999 only December is walked.
fn is_floating(date: Date, row: &[u16; 5]) -> bool {
    let [_, month, week, weekday, _] = *row;
    date.month == month && floating(date.year, month, week, weekday) == date
}

/// The row's day of the row's month, in any year that has it.
fn is_dated(date: Date, row: &[u16; 5]) -> bool {
    (date.month, date.day) == (row[1], row[2])
}

/// Whether this is the date of a row with "1 for a fixed date that moves to the next day when it is a Sunday".
fn is_date_that_moves(date: Date, row: &[u16; 5]) -> bool {
    row[0] == 1 && row[4] == 1 && is_dated(date, row)
}

/// The date of a row that moves is a Sunday: the holiday is the next day.
pub fn has_left(date: Date, row: &[u16; 5]) -> bool {
    is_date_that_moves(date, row) && weekday(date) == SUNDAY
}

/// The row's date was yesterday, a Sunday, and it moves. 31 December 1999 was none, and in a common year no day is 29 February.
pub fn has_moved_to(date: Date, row: &[u16; 5]) -> bool {
    has_left(day_before(date), row)
}

/// The date of a row that moves is no Sunday: the holiday is this very day.
pub fn stays(date: Date, row: &[u16; 5]) -> bool {
    is_date_that_moves(date, row) && weekday(date) != SUNDAY
}

fn is_fixed(date: Date, row: &[u16; 5]) -> bool {
    match row[4] {
        1 => stays(date, row) || has_moved_to(date, row),
        _ => is_dated(date, row),
    }
}

pub fn is_holiday(date: Date, row: &[u16; 5]) -> bool {
    match row[0] {
        1 => is_fixed(date, row),
        2 => is_floating(date, row),
        // the floating date alone is followed, and no fixed one that has moved
        _ => is_floating(day_before(date), row),
    }
}

/// 0 Sunday to 6 Saturday, 7 Holiday. "A moved holiday leaves its Sunday an ordinary one unless another row names it."
pub fn day_type(date: Date, holidays: &[[u16; 5]]) -> usize {
    if holidays.iter().any(|row| is_holiday(date, row)) {
        return HOLIDAY;
    }
    weekday(date) as usize
}

/// Year 2000-2099, a true date, tenth of the day 0-863999.
pub fn clock_ok(clock: Clock) -> bool {
    let true_date = search(clock.date).is_some();
    true_date && clock.date.year != 1999 && clock.tenth < TENTHS
}
