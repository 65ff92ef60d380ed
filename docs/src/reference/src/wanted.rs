//! 'Day and entry' and 'What is wanted' of document 01, with plans that run past midnight and levels tested by speeds from loop pairs by
//! document 02; and the cycle, to the nearest tick by document 02.

use crate::calendar::{day_type, days_back, Clock};
use crate::periods::{Counts, Periods};
use crate::site::{rate_ok, table_ok, Site, UNUSED};
use crate::speeds::LOOPS;
use std::cmp::Ordering;

#[derive(Clone, Copy, Debug, Default)]
pub struct Command {
    pub kind: u16,
    pub rate: u16,
    pub table: u16,
}

#[derive(Clone, Copy, Debug, PartialEq)]
pub enum Wish {
    Dark,
    Green,
    Metering(u16),
    Clear,
}

#[derive(Clone, Copy, Debug)]
pub struct Decision {
    /// Today's; none where nothing is decided.
    pub day: Option<usize>,
    /// The entry's place in the file from 1, 0 for none.
    pub entry: usize,
    /// How many days ago that entry began; 0 without one.
    pub days_ago: usize,
    pub source: &'static str,
    /// The level's place in the file from 1, 0 for none.
    pub level: usize,
    pub wish: Wish,
    pub tests: SpeedTests,
}

/// The measures over the good lanes.
#[derive(Clone, Copy, Debug)]
pub struct Measures {
    pub flow: u64,
    pub occupancy: u64,
    pub timed: Timed,
}

/// Vehicles that were timed, and their milliseconds in all.
#[derive(Clone, Copy, Debug)]
pub struct Timed {
    pub vehicles: u64,
    pub millis: u64,
}

impl Timed {
    /// How the speed, 21960 × vehicles ÷ milliseconds, stands to a threshold; nothing where no vehicle was timed.
    fn against(self, threshold: u16) -> Option<Ordering> {
        match self.vehicles {
            0 => None,
            vehicles => Some((LOOPS * vehicles).cmp(&(threshold as u64 * self.millis))),
        }
    }

    /// The speed rounded down.
    pub fn whole(self) -> Option<u64> {
        (LOOPS * self.vehicles).checked_div(self.millis)
    }
}

/// How many levels of the table that is asked have a speed threshold in use that is met, met and equal to the speed, not met, or without a
/// speed to test.
#[derive(Clone, Copy, Debug, Default)]
pub struct SpeedTests {
    pub met: u64,
    pub equal: u64,
    pub unmet: u64,
    pub unknown: u64,
}

pub fn lanes(site: &Site) -> (usize, usize) {
    (site.timings[0] as usize, site.timings[14] as usize)
}

/// Of 36000 × V ÷ rate the nearest whole tick, a half going up.
pub fn cycle(site: &Site, rate: u16) -> u32 {
    let (v, rate) = (site.timings[2] as u32, rate as u32);
    (2 * 36000 * v + rate) / (2 * rate)
}

/// Whether 36000 × V ÷ rate ends in a half: half a rate is left over.
fn ends_in_half(site: &Site, rate: u16) -> bool {
    let (v, rate) = (site.timings[2] as u32, rate as u32);
    2 * (36000 * v % rate) == rate
}

/// Whether the wish is metering, and its cycle a half going up.
pub fn half_goes_up(site: &Site, wish: Wish) -> bool {
    matches!(wish, Wish::Metering(rate) if ends_in_half(site, rate))
}

/// Among the entries of a day type whose start counts, the latest start, and among equal starts the one filed last; its place from 1.
pub fn latest_start(entries: &[[u16; 5]], day: usize, counts: impl Fn(u16) -> bool) -> Option<usize> {
    let those = (1..=entries.len()).filter(|place| {
        let [days, start, ..] = entries[place - 1];
        days & (1 << day) != 0 && counts(start)
    });
    // of equal starts `max_by_key` takes the last
    those.max_by_key(|place| entries[place - 1][1])
}

/// The place of the entry in force, and how many days ago it began. With no entry begun today it is the latest start of yesterday, of the
/// whole day; with none there either, that of the day before it, and so on, each day with its own day type.
fn entry_in_force(site: &Site, clock: Clock, day: usize) -> Option<(usize, usize)> {
    let minute = (clock.tenth / 600) as u16;
    if let Some(place) = latest_start(&site.entries, day, |start| start <= minute) {
        return Some((place, 0));
    }
    days_back(clock.date).zip(1..).find_map(|(date, days_ago)| {
        let place = latest_start(&site.entries, day_type(date, &site.holidays), |_| true)?;
        Some((place, days_ago))
    })
}

pub fn command_ok(c: Command) -> bool {
    match c.kind {
        0 => c.rate == 0 && c.table == 0,
        1..=4 => rate_ok(c.kind - 1, c.rate) && table_ok(c.kind - 1, c.table),
        _ => false,
    }
}

/// None without a good lane.
pub fn measures(c: &Counts, m: usize) -> Option<Measures> {
    let good: Vec<usize> = (0..m).filter(|j| c.good(*j)).collect();
    let lanes = good.len() as u64;
    if lanes == 0 {
        return None;
    }
    let vehicles: u64 = good.iter().map(|j| c.vehicles[*j] as u64).sum();
    let occupied: u64 = good.iter().map(|j| c.occupied[*j] as u64).sum();
    let timed: u64 = good.iter().map(|j| c.timed[*j] as u64).sum();
    let millis: u64 = good.iter().map(|j| c.millis[*j] as u64).sum();
    Some(Measures {
        flow: vehicles * 120 / lanes,
        occupancy: occupied / (30 * lanes),
        timed: Timed { vehicles: timed, millis },
    })
}

fn met(level: &[u16; 5], x: Measures) -> bool {
    let [_, flow, occupancy, speed, _] = *level;
    let slow = speed != UNUSED && x.timed.against(speed).is_some_and(Ordering::is_le);
    (flow != UNUSED && x.flow >= flow as u64)
        || (occupancy != UNUSED && x.occupancy >= occupancy as u64)
        || slow
}

fn speed_tests<'a>(levels: impl Iterator<Item = &'a [u16; 5]>, x: Measures) -> SpeedTests {
    let mut tests = SpeedTests::default();
    for [_, _, _, speed, _] in levels.filter(|level| level[3] != UNUSED) {
        let test = x.timed.against(*speed);
        tests.met += test.is_some_and(Ordering::is_le) as u64;
        tests.equal += test.is_some_and(Ordering::is_eq) as u64;
        tests.unmet += test.is_some_and(Ordering::is_gt) as u64;
        tests.unknown += test.is_none() as u64;
    }
    tests
}

/// A wish, with the place of the level that decided, and how speeds stood to thresholds.
type Wished = (usize, Wish, SpeedTests);

fn plainly(wish: Wish) -> Wished {
    (0, wish, SpeedTests::default())
}

/// The wish of a responsive one.
fn responsive(site: &Site, rate: u16, table: u16, p: &Periods) -> Wished {
    if p.serial == 0 {
        return plainly(Wish::Clear);
    }
    let Some(x) = measures(&p.last, lanes(site).1) else {
        return plainly(Wish::Metering(rate));
    };
    let asked = || site.levels.iter().enumerate().filter(|(_, level)| level[0] == table);
    let tests = speed_tests(asked().map(|(_, level)| level), x);
    match asked().filter(|(_, level)| met(level, x)).last() {
        Some((i, level)) => (i + 1, Wish::Metering(level[4]), tests),
        None => (0, Wish::Clear, tests),
    }
}

/// The wish of an entry's mode.
fn wish(site: &Site, mode: u16, rate: u16, table: u16, p: &Periods) -> Wished {
    match mode {
        0 => plainly(Wish::Dark),
        1 => plainly(Wish::Green),
        2 => plainly(Wish::Metering(rate)),
        _ => responsive(site, rate, table, p),
    }
}

/// A manual command of kind 1-4 rules; else communications; else the entry; with none, dark.
pub fn decide(site: &Site, clock: Clock, commands: [Command; 2], p: &Periods) -> Decision {
    let day = day_type(clock.date, &site.holidays);
    let (entry, days_ago) = entry_in_force(site, clock, day).unwrap_or((0, 0));
    let ruling = ["manual", "centre"].into_iter().zip(commands).find(|(_, c)| c.kind != 0);
    let (source, (level, wish, tests)) = match ruling {
        Some((source, c)) => (source, wish(site, c.kind - 1, c.rate, c.table, p)),
        None if entry == 0 => ("plan", plainly(Wish::Dark)),
        None => {
            let [_, _, mode, rate, table] = site.entries[entry - 1];
            ("plan", wish(site, mode, rate, table, p))
        }
    };
    Decision { day: Some(day), entry, days_ago, source, level, wish, tests }
}
