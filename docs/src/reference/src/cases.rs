//! Random sites, clocks, commands, periods and states, and cases made of them: what is wanted, the poll record, and readings.

use crate::calendar::{self, day_before, month_length, shifted, such_days, weekday, Clock, Date, SUNDAY};
use crate::call_run::{payload, Op};
use crate::periods::{Counts, Periods};
use crate::random::Random;
use crate::site::{self, bytes, Site, TIMINGS, UNUSED};
use crate::speed_watch::EDGES;
use crate::speeds::{quotient, Double, Pair, Speeds, LOOPS};
use crate::tick::State;
use crate::tick_cases::fresh;
use crate::wanted::{measures, Command, Measures};

/// A decision at a site and a state, a poll into a buffer of so many bytes, and at times a call for the readings.
struct Case {
    file: Vec<u8>,
    state: State,
    clock: Clock,
    commands: [Command; 2],
    poll: u16,
    readings: bool,
}

// Periods in range.

fn metered_counts(r: &mut Random, ticks: u16, n: usize, c: &mut Counts) {
    for i in 0..n {
        c.passages[i] = r.edged(0, ticks);
        c.greens[i] = r.edged(0, ticks);
    }
}

/// Few vehicles, so that the flow stands among the levels' thresholds, or any number of them.
fn vehicles(r: &mut Random, ticks: u16) -> u16 {
    let most = r.pick(&[30, 30, 80, 300]);
    r.edged(0, ticks.min(most))
}

/// Whole speeds of 1 to 250 at which a vehicle takes a whole number of milliseconds.
pub const WHOLE_SPEEDS: [u16; 21] = [1, 2, 3, 4, 5, 6, 8, 9, 10, 12, 20, 30, 45, 60, 61, 72, 90, 120, 122, 183, 244];

/// The milliseconds of so many timed vehicles: all at one speed or a millisecond beside it, the least and the most that there may be, or
/// any; mostly those of traffic that is not too slow.
fn millis(r: &mut Random, timed: u16, speed: Option<u16>) -> u32 {
    let (least, most) = (timed as u64, 65535 * timed as u64);
    let sum = match (r.from(0, 9), speed) {
        (0..=7, Some(speed)) => LOOPS * least / speed as u64 + r.pick(&[0, 0, 0, 0, 1, 2]) - r.pick(&[0, 0, 0, 1]),
        (8, _) => r.pick(&[least, most]),
        (9, _) => r.from(least, most),
        _ => {
            let slowest = r.pick(&[130, 250, 800]);
            r.from(88 * least, slowest * least)
        }
    };
    sum.clamp(least, most) as u32
}

/// A speed in range: none, one of a vehicle or of several, an end of the range, or any.
fn speed(r: &mut Random) -> Double {
    match r.from(0, 19) {
        0..=7 => Double::ZERO,
        8 => r.pick(&[Double(1 << 63), Double::LEAST, Double::MOST]),
        9 | 10 => Double(r.from(Double::LEAST.0, Double::MOST.0)),
        11..=13 => quotient(r.from(2, 300), r.from(300, 100_000)),
        _ => {
            let (fast, slow) = (r.from(88, 300), r.from(300, 20_000));
            quotient(1, r.pick(&[1, 65535, fast, fast, fast, slow]))
        }
    }
}

/// Kept speeds of m lanes, which need not go with any counts; in every fourth state none.
pub fn speeds(r: &mut Random, m: usize) -> Speeds {
    let mut out = Speeds::default();
    if r.percent(25) {
        return out;
    }
    for j in 0..m {
        out.current[j] = Pair { latest: speed(r), slowest: speed(r) };
        out.last[j] = Pair { latest: speed(r), slowest: speed(r) };
        out.earlier[j] = speed(r);
    }
    // beyond m 0 is 0 with either sign
    if m < 6 && r.percent(10) {
        *out.of_lane_mut(5)[r.from(0, 4) as usize] = Double(1 << 63);
    }
    out
}

fn mainline_counts(r: &mut Random, ticks: u16, m: usize, c: &mut Counts) {
    let failing = r.pick(&[0, 0, 20, 20, 50, 50, 100]);
    let timing = r.pick(&[0, 60, 90, 100]);
    let whole = r.pick(&WHOLE_SPEEDS);
    let speed = if r.percent(40) { Some(whole) } else { None };
    for j in 0..m {
        c.worked[j] = if r.percent(failing) && ticks > 0 { r.edged(0, ticks - 1) } else { ticks };
        c.vehicles[j] = vehicles(r, ticks);
        c.occupied[j] = r.edged(0, 100 * ticks);
        c.timed[j] = if r.percent(timing) { r.edged(0, c.vehicles[j]) } else { 0 };
        c.millis[j] = millis(r, c.timed[j], speed);
    }
}

fn counts(r: &mut Random, ticks: u16, n: usize, m: usize) -> Counts {
    let mut c = Counts::default();
    metered_counts(r, ticks, n, &mut c);
    mainline_counts(r, ticks, m, &mut c);
    c
}

pub fn periods(r: &mut Random, n: usize, m: usize) -> Periods {
    let ticks = r.edged(0, 299);
    let serial = match r.from(0, 9) {
        0 => 0,
        1 => 1,
        2 => u32::MAX,
        3 => r.number(65534, 65535) as u32 + 1,
        _ => r.from(1, u32::MAX as u64) as u32,
    };
    let completed = if serial == 0 { 0 } else { 300 };
    Periods { ticks, current: counts(r, ticks, n, m), serial, last: counts(r, completed, n, m), speeds: speeds(r, m) }
}

// Sites in range.

pub fn timings(r: &mut Random) -> Vec<u16> {
    let mut row: Vec<u16> = TIMINGS.iter().map(|(low, high)| r.edged(*low, *high)).collect();
    row[4] = r.edged(row[3], 100);
    (row[15], row[16]) = bypass_timings(r, row[0]);
    row
}

/// The priority lane of n, mostly one that there is, and a timeout.
pub fn bypass_timings(r: &mut Random, n: u16) -> (u16, u16) {
    let (some, seconds) = (r.number(1, n), r.number(3, 20));
    (r.pick(&[0, some, some, some, some]), r.pick(&[0, 0, 1, 1, 2, 2, 255, seconds, seconds]))
}

/// How many rows: mostly few, at times all.
fn rows(r: &mut Random, most: u16) -> u16 {
    match r.from(0, 19) {
        0 => most,
        1 => r.number(0, most),
        2 | 3 => 0,
        _ => r.number(1, 6),
    }
}

/// The rates at which 36000 × V ÷ rate ends in a half, of V 1, 2 and 3.
pub const HALVES: [&[u16]; 3] = [&[192, 320, 576, 960, 1600], &[384, 640, 1152], &[192, 320, 576, 960, 1600, 1728]];

/// One in four is a rate of `HALVES` above the lowest, or one right beside it; else it is the other one.
fn half_or(r: &mut Random, low: u16, other: u16) -> u16 {
    if !r.percent(25) {
        return other;
    }
    let halves: Vec<u16> = HALVES.concat().into_iter().filter(|half| *half > low).collect();
    r.pick(&halves) + r.pick(&[0, 1, 1, 2]) - 1
}

/// A rate of at least so many vehicles.
pub fn rate_from(r: &mut Random, low: u16) -> u16 {
    let any = r.number(low, 1800);
    half_or(r, low, any)
}

/// The same, from the lowest on, often the lowest or the highest.
pub fn rate(r: &mut Random) -> u16 {
    let any = r.edged(150, 1800);
    half_or(r, 150, any)
}

/// The rate and the table of a mode.
pub fn rate_and_table(r: &mut Random, mode: u16, tables: u16) -> (u16, u16) {
    let rate = if mode >= 2 { rate(r) } else { 0 };
    let table = if mode == 3 { r.number(1, tables) } else { 0 };
    (rate, table)
}

/// One day type, or any.
fn day_mask(r: &mut Random) -> u16 {
    if r.percent(50) {
        one_day(r)
    } else {
        r.number(1, 255)
    }
}

fn one_day(r: &mut Random) -> u16 {
    1 << r.number(0, 7)
}

/// The day types of a plan's entries: in every other plan one alone, or one or two, so that entries of many days before stay in force;
/// else mostly all.
fn masks(r: &mut Random, many: u16) -> Vec<u16> {
    let (one, other) = (one_day(r), one_day(r));
    let most = r.pick(&[255, 255, 127, 0]);
    let kind = r.from(0, 9);
    let mask = |_| match kind {
        0..=2 => one,
        3 | 4 => r.pick(&[one, other, one | other]),
        _ if most != 0 && r.percent(70) => most,
        _ => day_mask(r),
    };
    (0..many).map(mask).collect()
}

/// Entries on few distinct starts.
pub fn entries(r: &mut Random, starts: &[u16], tables: u16) -> Vec<[u16; 5]> {
    let many = rows(r, 16);
    let masks = masks(r, many);
    let entry = |mask| {
        let mode = r.pick(&[0, 1, 2, 3, 3, 3, 3, 3]);
        let (rate, table) = rate_and_table(r, mode, tables);
        [mask, r.pick(starts), mode, rate, table]
    };
    masks.into_iter().map(entry).collect()
}

/// The weeks that name this date in its month: its own, and 5 where it is the final one.
fn weeks(date: Date) -> Vec<u16> {
    let such = such_days(date.year, date.month, weekday(date));
    let place = such.iter().position(|d| *d == date).unwrap() as u16 + 1;
    if place as usize == such.len() {
        vec![place, 5]
    } else {
        vec![place]
    }
}

/// A row that names this date, or, with a kind of 3, the day after.
fn naming(r: &mut Random, kind: u16, date: Date) -> [u16; 5] {
    match kind {
        1 => [1, date.month, date.day, 0, 0],
        _ => [kind, date.month, r.pick(&weeks(date)), weekday(date), 0],
    }
}

/// A fixed date that moves.
fn moving(date: Date) -> [u16; 5] {
    [1, date.month, date.day, 0, 1]
}

/// A row that makes this date a holiday. One that moves has come from yesterday, a Sunday, or stays; on a Sunday there is none.
fn hit(r: &mut Random, date: Date) -> [u16; 5] {
    let before = day_before(date);
    match r.number(1, 5) {
        2 => naming(r, 2, date),
        3 => naming(r, 3, before),
        4 if weekday(before) == SUNDAY => moving(before),
        4 | 5 if weekday(date) != SUNDAY => moving(date),
        _ => naming(r, 1, date),
    }
}

/// A row that misses narrowly: another kind of the same date, or one number moved.
fn miss(r: &mut Random, date: Date) -> [u16; 5] {
    if r.percent(35) {
        return miss_moving(r, date);
    }
    let mut row = hit(r, date);
    match (r.from(0, 3), row[0]) {
        (0, 1) => row[2] = if row[2] < 28 { row[2] + 1 } else { 1 },
        (0, _) => row[2] = row[2] % 5 + 1,
        (1, 1) => row[2] = if row[2] > 1 { row[2] - 1 } else { 28 },
        (1, _) => row[3] = (row[3] + 1) % 7,
        (2, 2 | 3) => row[0] = 5 - row[0],
        _ => row[1] = row[1] % 12 + 1,
    }
    row[2] = if row[0] == 1 { row[2].min(site::days_in(row[1])) } else { row[2] };
    row
}

/// The same with dates that move: on 1 March of a common year 29 February; on a Sunday itself, which it leaves; on Tuesday the Sunday
/// before; else yesterday, which stays where it is no Sunday. On Monday that is one that does not move.
fn miss_moving(r: &mut Random, date: Date) -> [u16; 5] {
    let before = day_before(date);
    match weekday(date) {
        _ if (date.month, date.day, before.day) == (3, 1, 28) && r.percent(70) => [1, 2, 29, 0, 1],
        SUNDAY if r.percent(80) => moving(date),
        1 => naming(r, 1, before),
        2 if r.percent(50) => moving(day_before(before)),
        _ => moving(before),
    }
}

fn any_holiday(r: &mut Random) -> [u16; 5] {
    let (kind, month) = (r.number(1, 3), r.number(1, 12));
    match kind {
        1 => [1, month, r.edged(1, site::days_in(month)), 0, r.number(0, 1)],
        _ => [kind, month, r.number(1, 5), r.number(0, 6), 0],
    }
}

/// The date itself, or one of the nine days before it; often the last Sunday or Monday up to that day.
fn up_to(r: &mut Random, date: Date) -> Date {
    let back = r.pick(&[0, 0, 0, 0, 0, 0, 1, 1, 1, 2, 3, 4, 5, 6, 7, 8, 9]);
    let day = shifted(date, -back).expect("December 1999 is walked");
    if !r.percent(35) {
        return day;
    }
    let wanted = r.pick(&[SUNDAY, 1]);
    let mut week = (0..7).map(|back| shifted(day, -back).expect("December 1999 is walked"));
    week.find(|day| weekday(*day) == wanted).expect("every weekday is there")
}

/// Holidays on a date and the days before it, or right beside them. On a Sunday and on the Monday after it often one that moves from there.
pub fn holidays(r: &mut Random, date: Date) -> Vec<[u16; 5]> {
    let hitting = r.pick(&[0, 10, 30, 50]);
    let mut out: Vec<[u16; 5]> = (0..rows(r, 16))
        .map(|_| match (r.from(1, 100), up_to(r, date)) {
            (x, day) if x <= hitting => hit(r, day),
            (x, day) if x <= 70 => miss(r, day),
            _ => any_holiday(r),
        })
        .collect();
    let sunday = if weekday(date) == SUNDAY { date } else { day_before(date) };
    if weekday(sunday) == SUNDAY && r.percent(40) {
        out.truncate(15);
        out.insert(r.from(0, out.len() as u64) as usize, moving(sunday));
    }
    out
}

/// A threshold just below, at or just above what was measured, unused, or any.
fn threshold(r: &mut Random, measured: Option<u64>, high: u16) -> u16 {
    match (r.from(0, 9), measured) {
        (0..=4, Some(x)) => (x + 1).saturating_sub(r.from(0, 2)).clamp(1, high as u64) as u16,
        (5..=8, _) => UNUSED,
        _ => r.edged(1, high),
    }
}

/// Levels, half of them with one threshold alone.
fn levels(r: &mut Random, x: Option<Measures>, tables: u16) -> Vec<[u16; 5]> {
    (0..rows(r, 24))
        .map(|_| {
            let flow = threshold(r, x.map(|x| x.flow), 3000);
            let occupancy = threshold(r, x.map(|x| x.occupancy), 1000);
            let speed = threshold(r, x.and_then(|x| x.timed.whole()), 250);
            let alone = r.from(0, 5);
            let used = |i: u64, t: u16| if alone < 3 && alone != i { UNUSED } else { t };
            [r.number(1, tables), used(0, flow), used(1, occupancy), used(2, speed), rate(r)]
        })
        .collect()
}

// Clocks and commands in range.

/// That month's last day in the first year from this one on, going round after 2099, in which it is a Sunday.
fn sunday_end(year: u16, month: u16) -> Date {
    let years = (2000..2100).cycle().skip(year as usize - 2000);
    let mut ends = years.map(|year| Date { year, month, day: month_length(year, month) });
    ends.find(|end| weekday(*end) == SUNDAY).expect("every month ends on a Sunday in some year")
}

/// That Sunday or the day after it; 31 December 2099 is a Thursday.
fn monday_or(r: &mut Random, sunday: Date) -> Date {
    shifted(sunday, r.pick(&[0, 1])).expect("a Monday")
}

/// Dates at the ends of months and years, 29 February, the first days of 2000, of March and of any month, Sundays and Mondays, and any.
pub fn date(r: &mut Random) -> Date {
    let year = r.edged(2000, 2099);
    let month = r.number(1, 12);
    match r.from(0, 29) {
        0 => Date { year: 2000, month: 1, day: 1 },
        1 => Date { year: 2099, month: 12, day: 31 },
        2 => Date { year, month: 1, day: 1 },
        3 => Date { year, month: 12, day: 31 },
        4 => Date { year: year / 4 * 4, month: 2, day: 29 },
        5 => Date { year, month: 3, day: 1 },
        6 => Date { year, month, day: 1 },
        7 => Date { year, month, day: month_length(year, month) },
        8 => {
            let such = such_days(year, 11, 4);
            let day = such[3].day + r.number(0, 2);
            if day > 30 {
                Date { year, month: 12, day: 1 }
            } else {
                Date { year, month: 11, day }
            }
        }
        9 => Date { year: 2000, month: 1, day: r.number(1, 9) },
        10 => Date { year: r.pick(&[year, year / 4 * 4]), month: 3, day: r.number(1, 8) },
        11 => Date { year, month: r.pick(&[1, month]), day: r.number(1, 8) },
        12..=15 => {
            let sunday = r.pick(&such_days(year, month, SUNDAY));
            monday_or(r, sunday)
        }
        16 | 17 => {
            let month = r.pick(&[month, month, 2, 3, 12]);
            let end = sunday_end(year, month);
            monday_or(r, end)
        }
        _ => Date { year, month, day: r.number(1, month_length(year, month)) },
    }
}

/// Tenths about midnight and the start of an entry, and any.
pub fn tenth(r: &mut Random, starts: &[u16]) -> u32 {
    let start = r.pick(starts) as u32 * 600;
    match r.from(0, 12) {
        0 => r.pick(&[0, 0, 1, 599, 600]),
        1 | 2 => r.from(0, 1800) as u32,
        3 => 863_999 - r.pick(&[0, 0, 1, 20, 150]),
        4 | 5 => start,
        6 => start.saturating_sub(1),
        7 => start + 599,
        8 => start + 1,
        9 => r.from(0, start as u64) as u32,
        10 => r.from(start as u64, 863_999) as u32,
        _ => r.from(0, 863_999) as u32,
    }
}

fn command(r: &mut Random, tables: u16) -> Command {
    if r.percent(75) {
        return Command::default();
    }
    let kind = r.pick(&[1, 2, 3, 4, 4, 4]);
    let (rate, table) = rate_and_table(r, kind - 1, tables);
    Command { kind, rate, table }
}

pub fn starts(r: &mut Random) -> Vec<u16> {
    let latest = r.pick(&[60, 720, 1439]);
    (0..r.from(1, 3)).map(|_| r.edged(0, latest)).collect()
}

/// The length of a buffer for a poll: with room, just enough, a byte less, or any.
pub fn poll_size(r: &mut Random, n: usize, m: usize) -> u16 {
    let record = (8 + 4 * n + 6 * m) as u16;
    match r.from(0, 9) {
        0 => record - 1,
        1 => r.number(0, record),
        2 => 64,
        _ => record + r.number(0, 1),
    }
}

/// A case with nothing out of range but, at times, the buffer.
fn sound(r: &mut Random) -> Case {
    let timings = timings(r);
    let (n, m) = (timings[0] as usize, timings[14] as usize);
    let periods = periods(r, n, m);
    let tables = r.number(1, 4);
    let starts = starts(r);
    let date = date(r);
    let mut holidays = holidays(r, date);
    // the day before, 31 December 1999, is the final Friday of its month
    if date == (Date { year: 2000, month: 1, day: 1 }) && r.percent(50) {
        holidays.truncate(15);
        holidays.push([3, 12, 5, 5, 0]);
    }
    let entries = entries(r, &starts, tables);
    let levels = levels(r, measures(&periods.last, m), tables);
    let file = bytes(&Site { timings, entries, holidays, levels });
    let clock = Clock { date, tenth: tenth(r, &starts) };
    let state = State { periods, ..fresh(n, 0, 0) };
    let commands = [command(r, tables), command(r, tables)];
    Case { file, state, clock, commands, poll: poll_size(r, n, m), readings: r.percent(40) }
}

// Damage.

/// One count at an end of its range or beyond it.
fn damage_count(r: &mut Random, p: &mut Periods) {
    let current = r.percent(50);
    let limit = if current { p.ticks } else { 300 };
    let c = if current { &mut p.current } else { &mut p.last };
    let (i, j) = (r.from(0, 3) as usize, r.from(0, 5) as usize);
    let more = r.number(0, 1);
    match r.from(0, 7) {
        0 => c.passages[i] = limit + more,
        1 => c.greens[i] = limit + more,
        2 => c.worked[j] = limit + more,
        3 => c.vehicles[j] = limit + more,
        4 => c.occupied[j] = 100 * limit + more,
        5 => c.timed[j] = c.vehicles[j] + more,
        6 => c.millis[j] = 65535 * c.timed[j] as u32 + more as u32,
        _ => c.millis[j] = (c.timed[j] as u32).saturating_sub(more as u32),
    }
}

/// Something of any value in any lane, beyond n or m among them.
fn damage_lane(r: &mut Random, p: &mut Periods) {
    let value = r.pick(&[1, 2, 300, UNUSED]);
    let c = if r.percent(50) { &mut p.current } else { &mut p.last };
    let (i, j) = (r.from(2, 3) as usize, r.from(3, 5) as usize);
    match r.from(0, 6) {
        0 => c.passages[i] = value,
        1 => c.greens[i] = value,
        2 => c.worked[j] = value,
        3 => c.vehicles[j] = value,
        4 => c.occupied[j] = value,
        5 => c.timed[j] = value,
        _ => c.millis[j] = r.pick(&[value as u32, 65536, u32::MAX]),
    }
}

/// A kept speed at an end of its range or beside it, or with any bits; in any lane, those beyond m among them.
fn damage_speed(r: &mut Random, speeds: &mut Speeds) {
    let (_, edge) = r.pick(&EDGES);
    let any = Double(r.from(0, u64::MAX - 1));
    let speed = r.pick(&[edge, edge, edge, any]);
    *speeds.of_lane_mut(r.from(0, 5) as usize)[r.from(0, 4) as usize] = speed;
}

fn damage_period(r: &mut Random, p: &mut Periods) {
    match r.from(0, 12) {
        10..=12 => damage_speed(r, &mut p.speeds),
        0..=4 => damage_count(r, p),
        5..=7 => damage_lane(r, p),
        // the counts of a completed period, at serial 0
        8 => p.serial = 0,
        _ => p.ticks = r.pick(&[300, 301, UNUSED]),
    }
}

/// A lane's number out of range, or a lane of another colour than red where the lanes do not run.
fn damage_kept_lane(r: &mut Random, state: &mut State) {
    let lane = &mut state.lanes[r.from(0, 3) as usize];
    match r.from(0, 4) {
        0 => lane.age = r.pick(&[1, 720, 721, UNUSED]),
        1 => lane.counter = r.pick(&[1, 720, 721, UNUSED]),
        2 => lane.passages = r.pick(&[1, 3, 4, 256, UNUSED]),
        3 => lane.colour = r.pick(&[0, 2, 3, 4, UNUSED]),
        _ => {
            lane.colour = r.pick(&[2, 3]);
            state.interval = r.number(0, 9);
        }
    }
}

/// A bypass kept, at times where none may be; a timer at its end or beyond, or without a bypass.
fn damage_bypass(r: &mut Random, state: &mut State) {
    match r.from(0, 2) {
        0 => state.bypass.kept = true,
        1 => state.bypass.timer = r.pick(&[1, 2550, 2551, UNUSED]),
        _ => (state.bypass.kept, state.interval) = (true, r.number(0, 9)),
    }
}

/// One number beyond its range, at times at its end, at a site of n lanes.
pub fn damage_state(r: &mut Random, n: u16, state: &mut State) {
    match r.from(0, 11) {
        0 => state.interval = r.pick(&[9, 10, 11, 256, UNUSED]),
        1 => state.age = r.pick(&[36000, 36001, UNUSED]),
        2 => state.offset = r.pick(&[720, 721, UNUSED]),
        3 => state.last = r.pick(&[0, n, n + 1, 5, UNUSED]),
        4..=6 => damage_kept_lane(r, state),
        7 | 8 => damage_bypass(r, state),
        _ => damage_period(r, &mut state.periods),
    }
}

pub fn damage_clock(r: &mut Random, clock: &mut Clock) {
    let d = clock.date;
    match r.from(0, 9) {
        0 => clock.tenth = r.pick(&[864_000, 864_001, u32::MAX]),
        1 => clock.date.year = r.pick(&[0, 1999, 2100, UNUSED]),
        2 => clock.date.month = r.pick(&[0, 13, 14, UNUSED]),
        3 => clock.date.day = 0,
        4 => clock.date.day = r.pick(&[32, UNUSED]),
        5 => clock.date = Date { month: 2, day: 29, ..d },
        6 => clock.date = Date { month: 2, day: 30, ..d },
        7 => clock.date = Date { year: 1999, month: 12, day: 31 },
        8 => clock.date = Date { year: 2100, month: 1, day: 1 },
        _ => clock.date.day = month_length(d.year, d.month) + 1,
    }
}

pub fn damage_command(r: &mut Random, commands: &mut [Command; 2]) {
    let kind = r.pick(&[0, 1, 2, 3, 4, 5, UNUSED]);
    let rate = r.pick(&[0, 1, 149, 150, 600, 1800, 1801, UNUSED]);
    let table = r.pick(&[0, 1, 4, 5, UNUSED]);
    let c = r.from(0, 1) as usize;
    commands[c] = Command { kind, rate, table };
    if r.percent(50) {
        commands[1 - c] = Command { kind: 1, rate: 0, table: 0 };
    }
}

pub fn damage_file(r: &mut Random, file: &mut Vec<u8>) {
    // no number is left
    if file.len() < 2 {
        return;
    }
    match r.from(0, 3) {
        0 => file.truncate(r.from(0, file.len() as u64 - 1) as usize),
        1 => file.resize(file.len() + r.from(1, 3) as usize, 0),
        _ => {
            let at = r.from(0, file.len() as u64 / 2 - 1) as usize * 2;
            let value: u16 = r.pick(&[0, 1, 4, 5, 17, 101, 1801, UNUSED]);
            file[at..at + 2].copy_from_slice(&value.to_be_bytes());
        }
    }
}

fn damage(r: &mut Random, case: &mut Case) {
    match r.from(0, 9) {
        0..=4 => damage_state(r, case.state.last, &mut case.state),
        5 | 6 => damage_clock(r, &mut case.clock),
        7 | 8 => damage_command(r, &mut case.commands),
        _ => damage_file(r, &mut case.file),
    }
}

/// Every fifth case is damaged, some of them twice: the checks have an order.
fn random_case(r: &mut Random) -> Case {
    let mut case = sound(r);
    if r.percent(20) {
        damage(r, &mut case);
        if r.percent(30) {
            damage(r, &mut case);
        }
    }
    case
}

pub fn cases(r: &mut Random, many: usize) -> Vec<Vec<u8>> {
    assert_eq!(calendar::weekday(Date { year: 2000, month: 1, day: 1 }), 6);
    let case = |case: Case| {
        let mut ops = vec![Op::State(case.state), Op::Decide(case.clock, case.commands), Op::Poll(case.poll)];
        if case.readings {
            ops.push(Op::Readings);
        }
        payload(&case.file, &ops)
    };
    (0..many).map(|_| case(random_case(r))).collect()
}
