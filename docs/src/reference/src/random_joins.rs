//! Fresh random cases of a seed for `crates/join_cases`, and pairs of site files for the program `join_plans`. The starts are few and the
//! day types often those of another entry, or some of them, so that many entries are covered, or just not.

use crate::cases::{date, holidays, rate_and_table, starts};
use crate::join_plans::{self, Said};
use crate::join_run::Case;
use crate::joining::{remaining, Entry, List, MOST, ROOM};
use crate::random::Random;
use crate::random_cases::{any_site, damaged_file, EDGES};
use crate::site::{bytes, Site, UNUSED};
use crate::tally::Tally;

/// In one seed.
const CASES: usize = 200;
const PAIRS: usize = 60;

// Lists.

/// What the entries of two lists are made of: starts, day types, and of a hundred entries how many have any other ones.
struct Pool {
    starts: Vec<u16>,
    masks: Vec<u16>,
    others: u64,
}

fn one_day(r: &mut Random) -> u16 {
    1 << r.number(0, 7)
}

/// Some of these day types, at least one.
fn fewer(r: &mut Random, days: u16) -> u16 {
    match days & r.number(0, 255) {
        0 => days,
        some => some,
    }
}

/// A few starts, some a minute apart or at an end of the day, seldom many. Day types that have others among them, at times all days too;
/// in every fifth pool one or two day types alone, mostly with the Holiday, so that often no entry is in force.
fn pool(r: &mut Random) -> Pool {
    let mut starts = starts(r);
    let beside = (r.pick(&starts) + 1).min(1439);
    let many: Vec<u16> = (0..12).map(|_| r.number(0, 1439)).collect();
    starts.extend(r.pick(&[vec![], vec![beside], vec![0], vec![1439], vec![0, 1439, beside], many]));
    if r.percent(20) {
        let few = r.pick(&[128, 128, 129, 192]) >> r.pick(&[0, 0, 1]);
        return Pool { starts, masks: vec![few, few, fewer(r, few)], others: 0 };
    }
    let base = r.number(1, 255);
    let mut masks = vec![base, fewer(r, base), fewer(r, base), base | r.number(0, 255), one_day(r), one_day(r)];
    masks.extend(r.pick(&[vec![], vec![127, 255]]));
    Pool { starts, masks, others: 10 }
}

fn entry(r: &mut Random, pool: &Pool) -> Entry {
    let mode = r.number(0, 3);
    let (rate, table) = rate_and_table(r, mode, 4);
    let days = if r.percent(pool.others) { r.number(1, 255) } else { r.pick(&pool.masks) };
    [days, r.pick(&pool.starts), mode, rate, table]
}

/// One made after an entry of the second list: with the same days, with fewer, with a day more, or with those of two entries; seldom a
/// minute later. Its mode, rate and table are mostly its own.
fn made_after(r: &mut Random, pool: &Pool, second: &[Entry]) -> Entry {
    let (by, other) = (r.pick(second), r.pick(second));
    let days = match r.from(0, 9) {
        0 | 1 => by[0],
        2..=4 => fewer(r, by[0]),
        5 | 6 if pool.others > 0 => by[0] | one_day(r),
        7 if pool.others > 0 => by[0] | r.number(0, 255),
        _ => by[0] | other[0],
    };
    let later = r.percent(5) && by[1] < 1439;
    let [_, _, mode, rate, table] = if r.percent(20) { by } else { entry(r, pool) };
    [days, by[1] + later as u16, mode, rate, table]
}

fn size(r: &mut Random) -> usize {
    let (few, any) = (r.from(1, 6), r.from(0, 16));
    r.pick(&[0, 1, few, few, few, few, 8, any, any, any, 16]) as usize
}

/// The first list's entries are taken out or added until just so many remain, as far as that can be.
fn fit(r: &mut Random, pool: &Pool, first: &mut Vec<Entry>, second: &[Entry], many: usize) {
    while remaining(first, second).len() > many {
        first.remove(r.from(0, first.len() as u64 - 1) as usize);
    }
    while remaining(first, second).len() < many && first.len() < MOST {
        let at = r.from(0, first.len() as u64) as usize;
        first.insert(at, entry(r, pool));
    }
}

/// The entries of two lists, about half of the first's made after some of the second's. In every third pair just 16 or 17 remain,
/// if that can be.
fn lists(r: &mut Random) -> [Vec<Entry>; 2] {
    let pool = pool(r);
    let second: Vec<Entry> = (0..size(r)).map(|_| entry(r, &pool)).collect();
    let copied = if second.is_empty() { 0 } else { r.pick(&[0, 50, 50, 60, 60]) };
    let one = |r: &mut Random| if r.percent(copied) { made_after(r, &pool, &second) } else { entry(r, &pool) };
    let mut first: Vec<Entry> = (0..size(r)).map(|_| one(r)).collect();
    if r.percent(33) {
        let many = r.pick(&[16, 17]);
        fit(r, &pool, &mut first, &second, many);
    }
    [first, second]
}

// Cases.

/// Another count, a number beyond it, or one in use; the list may still be one that a file could give.
fn damage(r: &mut Random, list: &mut List) {
    let used = (5 * list.count as usize).min(ROOM);
    let value = if r.percent(80) { r.pick(&EDGES) } else { r.number(0, UNUSED) };
    let at = |r: &mut Random, low: usize, end: usize| r.from(low as u64, end as u64 - 1) as usize;
    match r.from(0, 3) {
        0 => list.count = r.pick(&[17, 255, 256, UNUSED, list.count + 1, list.count.wrapping_sub(1), value]),
        1 if used < ROOM => {
            let any = at(r, used, ROOM);
            list.numbers[r.pick(&[used, ROOM - 1, any])] = value.max(1);
        }
        _ if 0 < used => list.numbers[at(r, 0, used)] = value,
        _ => list.numbers[ROOM - 1] = 1,
    }
}

fn case(r: &mut Random) -> Vec<u8> {
    let [mut first, mut second] = lists(r).map(|entries| List::of(&entries));
    let damaged = r.from(0, 19);
    if damaged < 3 {
        damage(r, &mut first);
    }
    if (2..5).contains(&damaged) {
        damage(r, &mut second);
    }
    let date = date(r);
    let holidays = holidays(r, date);
    let any = r.number(0, UNUSED);
    let year = if r.percent(5) { r.pick(&[1999, 2100, 0, any]) } else { date.year };
    Case { first, second, year, holidays }.bytes()
}

pub fn cases(seed: u64) -> Vec<Vec<u8>> {
    let mut r = Random::new(seed);
    (0..CASES).map(|_| case(&mut r)).collect()
}

// Pairs of site files.

/// A site with a standing list and one with a roadworks list; at times one is damaged, or both.
fn pair(r: &mut Random) -> [Vec<u8>; 2] {
    let damaged = r.from(0, 19);
    let [first, second] = lists(r);
    let mut file = |entries, is_damaged| if is_damaged { damaged_file(r) } else { bytes(&Site { entries, ..any_site(r) }) };
    [file(first, damaged < 3), file(second, (2..5).contains(&damaged))]
}

pub fn pairs(seed: u64) -> Vec<[Vec<u8>; 2]> {
    let mut r = Random::new(seed);
    (0..PAIRS).map(|_| pair(&mut r)).collect()
}

/// What the program writes of a pair in the files `site.bin` and `works.bin`.
pub fn answer(pair: &[Vec<u8>; 2], tally: &mut Tally) -> Said {
    let said = join_plans::print(pair, [b"site.bin", b"works.bin"]);
    let lines = || said.explanation.split(|byte| *byte == b'\n');
    let outcome = match lines().next() {
        Some(b"refused 17") => "pairs of site files with too many entries",
        Some(line) if line.starts_with(b"refused ") => "pairs of site files refused",
        _ => "joined site files",
    };
    tally.count(outcome, 1);
    tally.count("entries reported as dropped", lines().filter(|line| line.starts_with(b"dropped: ")).count() as u64);
    said
}
