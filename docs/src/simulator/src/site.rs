//! The site file: read and checked once, and kept in the form in which a tick asks for it.

use crate::calendar::{days_in, DayRule, Holiday};
use crate::plan::Entry;
use crate::wanted::{Level, Order};

/// In flow, occupancy and speed of a level: unused.
const UNUSED: u16 = 65535;
/// Week 5 means the final such weekday of the month.
const FINAL_WEEK: u8 = 5;

const SHORT_FILE: u8 = 1;
const WRONG_COUNT: u8 = 2;
const BAD_TIMING: u8 = 3;
const BAD_ENTRY: u8 = 4;
const BAD_HOLIDAY: u8 = 5;
const BAD_LEVEL: u8 = 6;
const LONG_FILE: u8 = 7;

/// Why and where a file is refused.
pub struct Refused {
    pub number: u8,
    pub place: usize,
}

/// The timings, all times in ticks.
pub struct Timings {
    pub lanes: usize,
    pub fractional_offset: bool,
    pub vehicles_per_green: u8,
    pub minimum_green: u16,
    pub maximum_green: u16,
    pub yellow: u16,
    pub minimum_red: u16,
    pub startup_warning: u16,
    pub startup_green: u16,
    pub startup_yellow: u16,
    pub startup_red: u16,
    pub shutdown_red: u16,
    pub maximum_premetering: u16,
    pub minimum_premetering: u16,
    pub mainline_lanes: usize,
    /// The priority lane, from 0.
    pub priority: Option<usize>,
    pub bypass_timeout: Option<u16>,
}

pub struct Site {
    pub timings: Timings,
    /// By start, equal starts as filed.
    pub entries: Vec<Entry>,
    pub holidays: Vec<Holiday>,
    pub levels: Vec<Level>,
}

/// The timings' ranges in the file's order; that of the maximum green begins at the minimum green, and that of the priority lane ends at
/// the number of lanes.
const TIMINGS: [(u16, u16); 17] = [
    (1, 4),
    (0, 1),
    (1, 3),
    (10, 100),
    (10, 100),
    (10, 60),
    (10, 100),
    (10, 600),
    (10, 600),
    (10, 60),
    (10, 600),
    (10, 600),
    (1, 60),
    (1, 600),
    (1, 6),
    (0, 4),
    (0, 255),
];

const MOST_ENTRIES: u16 = 16;
const MOST_HOLIDAYS: u16 = 16;
const MOST_LEVELS: u16 = 24;

/// A row, or the place within it of the first number that is out of range given those to its left.
type Checked<T> = Result<T, usize>;

/// `Err(place)` unless the number is in range.
fn within(range: std::ops::RangeInclusive<u16>, number: u16, place: usize) -> Checked<()> {
    if range.contains(&number) {
        Ok(())
    } else {
        Err(place)
    }
}

fn timings(row: [u16; 17]) -> Checked<Timings> {
    for (i, number) in row.into_iter().enumerate() {
        let (low, high) = match (i, TIMINGS[i]) {
            (4, (_, high)) => (row[3], high),
            (15, (low, _)) => (low, row[0]),
            (_, range) => range,
        };
        within(low..=high, number, i)?;
    }
    Ok(Timings {
        lanes: row[0] as usize,
        fractional_offset: row[1] == 1,
        vehicles_per_green: row[2] as u8,
        minimum_green: row[3],
        maximum_green: row[4],
        yellow: row[5],
        minimum_red: row[6],
        startup_warning: row[7],
        startup_green: row[8],
        startup_yellow: row[9],
        startup_red: row[10],
        shutdown_red: row[11],
        // in minutes
        maximum_premetering: row[12] * 600,
        minimum_premetering: row[13],
        mainline_lanes: row[14] as usize,
        priority: (row[15] as usize).checked_sub(1),
        // in seconds
        bypass_timeout: if row[16] == 0 { None } else { Some(row[16] * 10) },
    })
}

fn entry(row: [u16; 5]) -> Checked<Entry> {
    let [days, start, mode, rate, table] = row;
    within(1..=255, days, 0)?;
    within(0..=1439, start, 1)?;
    within(0..=3, mode, 2)?;
    // modes 0 to 3 are the commands of kinds 1 to 4
    let order = Order::of_kind(mode + 1, rate, table).map_err(|place| 2 + place)?;
    Ok(Entry { days: days as u8, start, order: order.expect("no mode is kind 0") })
}

/// A row of the holidays: one, or two where it moves.
fn holiday(row: [u16; 5]) -> Checked<Vec<Holiday>> {
    let [kind, month, day_or_week, weekday, moves] = row;
    within(1..=3, kind, 0)?;
    within(1..=12, month, 1)?;
    let fixed = kind == 1;
    let leap = true;
    within(1..=if fixed { days_in(month as u8, leap).into() } else { 5 }, day_or_week, 2)?;
    within(0..=if fixed { 0 } else { 6 }, weekday, 3)?;
    within(0..=if fixed { 1 } else { 0 }, moves, 4)?;
    let (month, day, week, weekday) = (month as u8, day_or_week as u8, day_or_week as u8, weekday as u8);
    let floating = if week == FINAL_WEEK { DayRule::Final { weekday } } else { DayRule::Floating { week, weekday } };
    let is = |rule: DayRule| Holiday { month, rule, day_after: false };
    let follows = |rule: DayRule| Holiday { month, rule, day_after: true };
    Ok(match (kind, moves) {
        (1, 0) => vec![is(DayRule::Fixed { day })],
        (1, _) => vec![is(DayRule::NoSunday { day }), follows(DayRule::Sunday { day })],
        (2, _) => vec![is(floating)],
        _ => vec![follows(floating)],
    })
}

fn level(row: [u16; 5]) -> Checked<Level> {
    let [table, flow, occupancy, speed, rate] = row;
    let threshold = |most: u16, number: u16, place: usize| match number {
        UNUSED => Ok(None),
        _ => within(1..=most, number, place).map(|()| Some(number)),
    };
    within(1..=4, table, 0)?;
    let flow = threshold(3000, flow, 1)?;
    let occupancy = threshold(1000, occupancy, 2)?;
    let speed = threshold(250, speed, 3)?;
    within(150..=1800, rate, 4)?;
    Ok(Level { table: table as u8, flow, occupancy, speed, rate })
}

/// A place in the file.
struct Reader<'a> {
    file: &'a [u8],
    at: usize,
}

impl Reader<'_> {
    /// So many numbers are there.
    fn present(&self, numbers: usize) -> Result<(), Refused> {
        if self.file.len() - self.at < 2 * numbers {
            return Err(Refused { number: SHORT_FILE, place: self.file.len() });
        }
        Ok(())
    }

    /// The next number, which is there.
    fn number(&mut self) -> u16 {
        let number = u16::from_be_bytes([self.file[self.at], self.file[self.at + 1]]);
        self.at += 2;
        number
    }

    fn count(&mut self, allowed: std::ops::RangeInclusive<u16>) -> Result<u16, Refused> {
        self.present(1)?;
        let place = self.at;
        let count = self.number();
        within(allowed, count, place).map_err(|place| Refused { number: WRONG_COUNT, place })?;
        Ok(count)
    }

    /// So many rows of N numbers; a bad number gives that refusal.
    fn rows<T, const N: usize>(&mut self, count: u16, check: fn([u16; N]) -> Checked<T>, bad: u8) -> Result<Vec<T>, Refused> {
        self.present(count as usize * N)?;
        let mut rows = Vec::with_capacity(count as usize);
        for _ in 0..count {
            let begin = self.at;
            let row = std::array::from_fn(|_| self.number());
            rows.push(check(row).map_err(|i| Refused { number: bad, place: begin + 2 * i })?);
        }
        Ok(rows)
    }
}

impl Site {
    pub fn read(file: &[u8]) -> Result<Site, Refused> {
        let mut reader = Reader { file, at: 0 };
        // their count counts numbers, and they are one row
        let numbers = TIMINGS.len() as u16;
        reader.count(numbers..=numbers)?;
        let timings = reader.rows(1, timings, BAD_TIMING)?.remove(0);
        let count = reader.count(0..=MOST_ENTRIES)?;
        let mut entries = reader.rows(count, entry, BAD_ENTRY)?;
        let count = reader.count(0..=MOST_HOLIDAYS)?;
        let holidays = reader.rows(count, holiday, BAD_HOLIDAY)?.into_iter().flatten().collect();
        let count = reader.count(0..=MOST_LEVELS)?;
        let levels = reader.rows(count, level, BAD_LEVEL)?;
        if reader.at < file.len() {
            return Err(Refused { number: LONG_FILE, place: reader.at });
        }
        entries.sort_by_key(|entry| entry.start);
        Ok(Site { timings, entries, holidays, levels })
    }
}
