//! Stored cases of plans that run past midnight: decisions and ticks at clocks that look back by each number of days, over holidays, ends
//! of months and years, 29 February and the first days of 2000; runs of ticks over midnight, and clocks that jump.
//! Beside each clock stands the place of the entry that should be in force there, 0 for none, as one finds it on a calendar; the rules are
//! held to it. Where a comment has words in quotation marks, they are the request's.

use crate::calendar::{Clock, Date};
use crate::call_run::{from_power_up, Op};
use crate::nearest_cases::{passing, quick};
use crate::periods::{Periods, Sample};
use crate::site::{bytes, Site, UNUSED};
use crate::tick::Input;
use crate::tick_cases::{at, fixed, in_demand, quiet, DARK, GREEN, NONE, RESPONSIVE};
use crate::wanted::{decide, Command};
use std::ops::RangeInclusive;

// The day types of an entry.
pub const SUN: u16 = 1;
pub const MON: u16 = 2;
pub const TUE: u16 = 4;
pub const WED: u16 = 8;
pub const THU: u16 = 16;
pub const FRI: u16 = 32;
pub const SAT: u16 = 64;
pub const HOL: u16 = 128;
/// All but holidays.
pub const DAILY: u16 = 127;

/// At midnight, at noon and in the last minute.
const ALL_DAY: [u32; 3] = [0, 720, 1439];

/// A clock, and the place of the entry in force there.
pub type Asked = (Clock, usize);

/// An entry to meter from a minute on.
pub fn meter(days: u16, start: u16, rate: u16) -> [u16; 5] {
    [days, start, 2, rate, 0]
}

pub fn planned(entries: &[[u16; 5]], holidays: &[[u16; 5]]) -> Site {
    Site { entries: entries.to_vec(), holidays: holidays.to_vec(), ..quick(2, 0, 1) }
}

/// Each of these days of a month at each of these minutes, with the same entry in force.
pub fn each(year: u16, month: u16, days: RangeInclusive<u16>, minutes: &[u32], place: usize) -> Vec<Asked> {
    days.flat_map(|day| minutes.iter().map(move |minute| (at(year, month, day, *minute), place))).collect()
}

/// The entry that the rules find, whatever is commanded.
fn hold(site: &Site, clock: Clock, commands: [Command; 2], place: usize) {
    let found = decide(site, clock, commands, &Periods::default()).entry;
    assert_eq!(found, place, "the entry in force at {clock:?}");
}

pub fn decision(site: &Site, (clock, place): Asked) -> Op {
    hold(site, clock, [NONE; 2], place);
    Op::Decide(clock, [NONE; 2])
}

pub fn tick(site: &Site, (clock, place): Asked) -> Op {
    hold(site, clock, [NONE; 2], place);
    Op::Ticks(1, Input { clock, ..in_demand(NONE) })
}

/// A decision at each clock.
pub fn decided(site: &Site, asked: &[Asked]) -> Vec<u8> {
    from_power_up(&bytes(site), &asked.iter().map(|a| decision(site, *a)).collect::<Vec<Op>>())
}

/// A decision and a tick at each clock.
pub fn ticked(site: &Site, asked: &[Asked]) -> Vec<u8> {
    from_power_up(&bytes(site), &asked.iter().flat_map(|a| [decision(site, *a), tick(site, *a)]).collect::<Vec<Op>>())
}

// Midnight.

/// "Sites that meter around the clock go dark at 00:00 until their first entry": no longer. At Monday's last tenth, and on Tuesday at the
/// first two tenths, at the last of the first minute and at the next one; with an entry at 20:00 and another at 00:00, 00:01, 00:02 or
/// 23:59.
fn first_minute() -> Vec<Vec<u8>> {
    let clock = |day, tenth| Clock { date: Date { year: 2025, month: 1, day }, tenth };
    let clocks = [clock(6, 863_999), clock(7, 0), clock(7, 1), clock(7, 599), clock(7, 600)];
    let case = |start: u16, places: [usize; 5]| {
        let site = planned(&[meter(DAILY, 1200, 900), meter(DAILY, start, 700)], &[]);
        ticked(&site, &clocks.into_iter().zip(places).collect::<Vec<Asked>>())
    };
    vec![case(0, [1, 2, 2, 2, 2]), case(1, [1, 1, 1, 1, 2]), case(2, [1, 1, 1, 1, 1]), case(1439, [2, 2, 2, 2, 2])]
}

/// The last ticks of a day and the first of the next, with vehicles on the ramp, and what is in force before midnight and after.
pub fn over(site: &Site, last: Date, next: Date, after: u16, places: [usize; 2]) -> Vec<u8> {
    let (evening, morning) = (Clock { date: last, tenth: 863_800 }, Clock { date: next, tenth: 0 });
    let ticks = |count, clock| Op::Ticks(count, Input { clock, ..passing(NONE) });
    let ops = [decision(site, (evening, places[0])), ticks(200, evening), decision(site, (morning, places[1])), ticks(after, morning)];
    from_power_up(&bytes(site), &ops)
}

/// Runs over midnight: the entry stays in force and metering goes on, until an entry of the new day begins.
fn runs() -> Vec<Vec<u8>> {
    let date = |year, month, day| Date { year, month, day };
    let evening = planned(&[meter(DAILY, 1200, 900)], &[]);
    // the new day's entry begins at its second minute, at its first tenth, or is dark
    let second_minute = planned(&[meter(DAILY, 1200, 900), meter(DAILY, 1, 600)], &[]);
    let midnight = planned(&[meter(DAILY, 1200, 900), meter(DAILY, 0, 600)], &[]);
    let dark = planned(&[[DAILY, 0, 0, 0, 0], meter(DAILY, 1200, 900)], &[]);
    // into a holiday without entries, into one with its own, and out of it
    let fourth = [[1, 7, 4, 0, 0]];
    let into = planned(&[meter(DAILY, 1200, 900)], &fourth);
    let own = planned(&[meter(DAILY, 1200, 900), [HOL, 0, 1, 0, 0]], &fourth);
    let out = planned(&[meter(DAILY, 360, 900), meter(HOL, 1200, 600)], &fourth);
    // "Only then is it dark": seven days after the holiday its entry meters up to the last tenth
    let seventh = planned(&[meter(HOL, 1200, 900)], &fourth);
    vec![
        over(&evening, date(2025, 1, 6), date(2025, 1, 7), 200, [1, 1]),
        over(&second_minute, date(2025, 1, 6), date(2025, 1, 7), 660, [1, 1]),
        over(&midnight, date(2025, 1, 6), date(2025, 1, 7), 100, [1, 2]),
        over(&dark, date(2025, 1, 6), date(2025, 1, 7), 60, [2, 1]),
        over(&into, date(2025, 7, 3), date(2025, 7, 4), 100, [1, 1]),
        over(&own, date(2025, 7, 3), date(2025, 7, 4), 60, [1, 2]),
        over(&out, date(2025, 7, 4), date(2025, 7, 5), 100, [2, 2]),
        over(&seventh, date(2025, 7, 11), date(2025, 7, 12), 60, [1, 0]),
        // ends of months, of February in a leap year and a common one, and of a year
        over(&evening, date(2025, 4, 30), date(2025, 5, 1), 60, [1, 1]),
        over(&evening, date(2024, 2, 28), date(2024, 2, 29), 60, [1, 1]),
        over(&evening, date(2024, 2, 29), date(2024, 3, 1), 60, [1, 1]),
        over(&evening, date(2025, 2, 28), date(2025, 3, 1), 60, [1, 1]),
        over(&evening, date(2025, 12, 31), date(2026, 1, 1), 60, [1, 1]),
    ]
}

/// A clock that jumps forward and back, over hours, days, months and years: at each tick the entry in force is that of the clock, whatever
/// was in force before. Entries on Monday 06:00, Thursday 20:00 and, green, at noon of a holiday, 4 July.
fn jumps() -> Vec<u8> {
    let site = planned(&[meter(MON, 360, 900), meter(THU, 1200, 600), [HOL, 720, 1, 0, 0]], &[[1, 7, 4, 0, 0]]);
    let asked = [
        // Wednesday, and Thursday before and after its start
        (at(2025, 1, 8, 180), 1),
        (at(2025, 1, 9, 180), 1),
        (at(2025, 1, 9, 1260), 2),
        // back to Tuesday; on to a Friday of the next month, and back to a Wednesday of the year before
        (at(2025, 1, 7, 1260), 1),
        (at(2025, 2, 7, 0), 2),
        (at(2024, 2, 7, 600), 1),
        // the day after the holiday; the holiday before its start and at it; Sunday, and Monday before its start and at it
        (at(2025, 7, 5, 60), 3),
        (at(2025, 7, 4, 719), 2),
        (at(2025, 7, 4, 720), 3),
        (at(2025, 7, 6, 1439), 3),
        (at(2025, 7, 7, 359), 3),
        (at(2025, 7, 7, 360), 1),
        // the first days of 2000 and the last of 2099
        (at(2000, 1, 1, 0), 0),
        (at(2099, 12, 31, 1199), 1),
        (at(2000, 1, 3, 359), 0),
        (at(2099, 12, 31, 1200), 2),
        (at(2000, 1, 3, 360), 1),
        (at(2000, 2, 29, 0), 1),
        (at(2000, 1, 2, 1439), 0),
        (at(2025, 1, 10, 0), 2),
    ];
    let mut ops = vec![Op::Ticks(150, Input { clock: at(2025, 1, 6, 360), ..passing(NONE) })];
    for (clock, place) in asked {
        ops.push(decision(&site, (clock, place)));
        ops.push(Op::Ticks(if place == 0 { 30 } else { 70 }, Input { clock, ..passing(NONE) }));
    }
    from_power_up(&bytes(&site), &ops)
}

// Days back.

/// "It goes back seven days at most": a plan on one weekday alone, in the week from that day on and at the same weekday again. Before the
/// start it is the same entry of the week before. Sunday is 5 January.
fn one_weekday() -> Vec<Vec<u8>> {
    let case = |weekday: u16, start: u16| {
        let site = planned(&[meter(1 << weekday, start, 900)], &[]);
        let day = 5 + weekday;
        let about_start = [(start as u32).saturating_sub(1), start as u32];
        let asked = [each(2025, 1, day..=day + 7, &[0, 1439], 1), each(2025, 1, day + 7..=day + 7, &about_start, 1)].concat();
        decided(&site, &asked)
    };
    (0..7).flat_map(|weekday| [0, 360, 1439].map(|start| case(weekday, start))).collect()
}

/// The same in ticks, of Sunday, Wednesday and Saturday.
fn one_weekday_ticks() -> Vec<Vec<u8>> {
    let case = |weekday: u16| {
        let site = planned(&[meter(1 << weekday, 360, 900)], &[]);
        ticked(&site, &each(2025, 1, 5 + weekday..=12 + weekday, &[0], 1))
    };
    [0, 3, 6].map(case).to_vec()
}

/// An entry for each weekday, Sunday's first, from 06:00 on: "yesterday's day type". On each day before its start it is yesterday's.
pub fn each_weekday() -> Site {
    planned(&(0..7).map(|weekday| meter(1 << weekday, 360, 900 + weekday)).collect::<Vec<_>>(), &[])
}

/// The most recent day with an entry decides, and not any such day: the entries of each weekday, of Sunday and Wednesday, and of Tuesday,
/// Wednesday and Saturday with the earlier day filed later. From Sunday 5 January on.
fn most_recent() -> Vec<Vec<u8>> {
    let week = |before: [usize; 7], after: [usize; 7]| {
        let day = |k: usize| [(at(2025, 1, 5 + k as u16, 359), before[k]), (at(2025, 1, 5 + k as u16, 360), after[k])];
        (0..7).flat_map(day).collect::<Vec<Asked>>()
    };
    let two = planned(&[meter(SUN, 360, 900), meter(WED, 360, 600)], &[]);
    let three = planned(&[meter(SAT, 360, 900), meter(WED, 360, 600), meter(TUE, 360, 700)], &[]);
    vec![
        ticked(&each_weekday(), &week([7, 1, 2, 3, 4, 5, 6], [1, 2, 3, 4, 5, 6, 7])),
        decided(&two, &week([2, 1, 1, 1, 2, 2, 2], [1, 1, 1, 2, 2, 2, 2])),
        decided(&three, &week([1, 1, 1, 3, 2, 2, 2], [1, 1, 3, 2, 2, 2, 1])),
    ]
}

/// "Takes the latest start there, equal starts as before": yesterday's entry at 20:00 though it is only 00:30, of two such the one filed
/// last, and neither those of earlier starts nor today's that have not begun; all of sixteen entries, too.
fn latest_start() -> Vec<Vec<u8>> {
    let several = planned(&[meter(DAILY, 1200, 900), meter(DAILY, 360, 800), meter(DAILY, 1200, 700), meter(DAILY, 720, 600)], &[]);
    let days_ago = planned(&[meter(WED, 0, 900), meter(WED, 1439, 800), meter(WED, 1439, 700), meter(WED, 1438, 600)], &[]);
    let rows = |start: fn(u16) -> u16| (0..16).map(|k| meter(WED, start(k), 900 + k)).collect::<Vec<_>>();
    let (equal, falling, rising) = (planned(&rows(|_| 600), &[]), planned(&rows(|k| 600 - k), &[]), planned(&rows(|k| 600 + k), &[]));
    let thursday = |place| [(at(2025, 1, 9, 0), place), (at(2025, 1, 14, 1439), place), (at(2025, 1, 15, 584), place)];
    let day = [(0, 3), (30, 3), (359, 3), (360, 2), (719, 2), (720, 4), (1199, 4), (1200, 3), (1439, 3)];
    vec![
        ticked(&several, &day.map(|(minute, place)| (at(2025, 1, 9, minute), place))),
        decided(&days_ago, &[each(2025, 1, 9..=14, &[0, 1439], 3), each(2025, 1, 15..=15, &[0, 1437], 1)].concat()),
        decided(&equal, &thursday(16)),
        decided(&falling, &thursday(1)),
        decided(&rising, &thursday(16)),
    ]
}

/// "With no entry begun today": one that has begun today is in force, though yesterday's began later in its day and is filed later.
fn begun_today() -> Vec<Vec<u8>> {
    let filed_first = planned(&[meter(TUE, 0, 900), meter(MON, 1439, 600)], &[]);
    let filed_last = planned(&[meter(MON, 1439, 600), meter(TUE, 720, 900)], &[]);
    vec![
        ticked(&filed_first, &[(at(2025, 1, 6, 1439), 2), (at(2025, 1, 7, 0), 1), (at(2025, 1, 7, 1439), 1), (at(2025, 1, 8, 0), 1)]),
        ticked(&filed_last, &[(at(2025, 1, 7, 719), 1), (at(2025, 1, 7, 720), 2), (at(2025, 1, 8, 0), 2), (at(2025, 1, 13, 1438), 2)]),
    ]
}

// Holidays.

/// An entry on holidays alone, from 10:00 on, is in force on the seven days after the holiday, to their end, and not on the eighth: of a
/// fixed date, a floating one and the day after, of both, and of two that are seven days apart.
fn holiday_alone() -> Vec<Vec<u8>> {
    let site = |rows: &[[u16; 5]]| planned(&[meter(HOL, 600, 900)], rows);
    let begins = |month, day| [each(2025, month, day..=day, &[0, 599], 0), each(2025, month, day..=day, &[600, 1439], 1)].concat();
    // Friday 4 July
    let fixed = [each(2025, 7, 3..=3, &ALL_DAY, 0), begins(7, 4), each(2025, 7, 5..=11, &ALL_DAY, 1), each(2025, 7, 12..=13, &ALL_DAY, 0)];
    // Thanksgiving is 27 November
    let december = |last: u16| [each(2025, 12, 1..=last, &ALL_DAY, 1), each(2025, 12, last + 1..=last + 2, &ALL_DAY, 0)].concat();
    let thanksgiving = [begins(11, 27), each(2025, 11, 28..=30, &ALL_DAY, 1), december(4)];
    let day_after = [each(2025, 11, 27..=27, &ALL_DAY, 0), begins(11, 28), each(2025, 11, 29..=30, &ALL_DAY, 1), december(5)];
    let both = [begins(11, 27), each(2025, 11, 28..=30, &ALL_DAY, 1), december(5)];
    // on New Year's Day before 10:00 it is Christmas Day's
    let new_year = [each(2026, 1, 1..=8, &ALL_DAY, 1), each(2026, 1, 9..=9, &ALL_DAY, 0)].concat();
    let christmas = [begins(12, 25), each(2025, 12, 26..=31, &ALL_DAY, 1), new_year];
    vec![
        ticked(&site(&[[1, 7, 4, 0, 0]]), &fixed.concat()),
        decided(&site(&[[2, 11, 4, 4, 0]]), &thanksgiving.concat()),
        decided(&site(&[[3, 11, 4, 4, 0]]), &day_after.concat()),
        decided(&site(&[[2, 11, 4, 4, 0], [3, 11, 4, 4, 0]]), &both.concat()),
        decided(&site(&[[1, 12, 25, 0, 0], [1, 1, 1, 0, 0]]), &christmas.concat()),
    ]
}

/// "Yesterday's day type": where yesterday was a holiday its weekday's entry is not taken, but the Holiday entry, or that of the day before
/// it where there is none; and the same of the days before. Entries 1 to 7 are those of Sunday to Saturday, 8 that of holidays.
fn holidays_before() -> Vec<Vec<u8>> {
    let site = |rows: &[[u16; 5]], with_holiday: bool| {
        let mut site = each_weekday();
        site.holidays = rows.to_vec();
        if with_holiday {
            site.entries.push(meter(HOL, 360, 600));
        }
        site
    };
    // from Thursday 27 November on, at midnight: Friday, Saturday, Sunday
    let after = |places: [usize; 3]| {
        let clocks = [at(2025, 11, 28, 0), at(2025, 11, 29, 359), at(2025, 11, 30, 0)];
        clocks.into_iter().zip(places).collect::<Vec<Asked>>()
    };
    let (thanksgiving, day_after, fixed) = ([2, 11, 4, 4, 0], [3, 11, 4, 4, 0], [1, 11, 28, 0, 0]);
    vec![
        ticked(&site(&[], true), &after([5, 6, 7])),
        ticked(&site(&[thanksgiving], false), &after([4, 6, 7])),
        ticked(&site(&[thanksgiving], true), &after([8, 6, 7])),
        ticked(&site(&[day_after], false), &after([5, 5, 7])),
        ticked(&site(&[day_after], true), &after([5, 8, 7])),
        ticked(&site(&[fixed], false), &after([5, 5, 7])),
        ticked(&site(&[fixed], true), &after([5, 8, 7])),
        ticked(&site(&[thanksgiving, day_after], false), &after([4, 4, 7])),
        ticked(&site(&[thanksgiving, day_after], true), &after([8, 8, 7])),
    ]
}

/// Today is a holiday, yesterday was none: up to today's first Holiday entry yesterday's is in force, all day long where there is none.
/// Wednesday 8 January.
fn holiday_today() -> Vec<Vec<u8>> {
    let plain = planned(&[meter(DAILY, 360, 900)], &[[1, 1, 8, 0, 0]]);
    let own = planned(&[meter(WED, 0, 900), meter(TUE, 360, 600), meter(HOL, 540, 700)], &[[1, 1, 8, 0, 0]]);
    vec![
        ticked(&plain, &[each(2025, 1, 8..=8, &[0, 359, 360, 1439], 1), each(2025, 1, 9..=9, &[0, 360], 1)].concat()),
        ticked(&own, &[each(2025, 1, 8..=8, &[0, 539], 2), each(2025, 1, 8..=8, &[540, 1439], 3), each(2025, 1, 9..=14, &[0], 3)].concat()),
    ]
}

/// Eight holidays in a row, 1 to 8 July, and entries on all other days from 06:00 on: 30 June's is in force on seven of them, one to seven
/// days back, and on the eighth none; nor is one on the ninth, up to its own start.
fn holidays_in_a_row() -> Vec<u8> {
    let rows: Vec<[u16; 5]> = (1..=8).map(|day| [1, 7, day, 0, 0]).collect();
    let site = planned(&[meter(DAILY, 360, 900)], &rows);
    let asked = [each(2025, 7, 1..=7, &[0, 1439], 1), each(2025, 7, 8..=8, &ALL_DAY, 0), each(2025, 7, 9..=9, &[0, 359], 0)];
    ticked(&site, &[&asked.concat()[..], &each(2025, 7, 9..=9, &[360, 1439], 1)].concat())
}

// The calendar.

/// "Never before 1 January 2000": the first nine days, with an entry on each weekday alone. 31 December 1999 was a Friday, and Friday's
/// entry is not in force before the 7th.
fn january_2000() -> Vec<Vec<u8>> {
    let case = |weekday: u16| {
        let site = planned(&[meter(1 << weekday, 360, 900)], &[]);
        // Saturday's is the 1st, Sunday's the 2nd, Friday's the 7th
        let first = (weekday + 1) % 7 + 1;
        let clocks = each(2000, 1, 1..=9, &[0, 359, 360, 1439], 0);
        let place = |clock: Clock| ((clock.date.day, clock.tenth) >= (first, 216_000)) as usize;
        decided(&site, &clocks.into_iter().map(|(clock, _)| (clock, place(clock))).collect::<Vec<Asked>>())
    };
    (0..7).map(case).collect()
}

/// The same with entries on all days, on Friday alone, and with rows that name 31 December, which is not looked at; as kind 3 the row that
/// names its Friday makes 1 January 2000 a holiday.
fn january_2000_holidays() -> Vec<Vec<u8>> {
    let always = [meter(255, 360, 900)];
    let holiday = [meter(HOL, 600, 900)];
    let saturday = [meter(SAT, 360, 900)];
    let both = [meter(SAT, 360, 900), meter(HOL, 600, 600)];
    let (fixed, final_friday, day_after, new_year) = ([1, 12, 31, 0, 0], [2, 12, 5, 5, 0], [3, 12, 5, 5, 0], [1, 1, 1, 0, 0]);
    let days = |from, to, place| each(2000, 1, from..=to, &[0, 1439], place);
    let first = [each(2000, 1, 1..=1, &[0, 359], 0), each(2000, 1, 1..=1, &[360, 1439], 1), days(2, 9, 1)].concat();
    let none = days(1, 9, 0);
    let friday = [days(1, 6, 0), each(2000, 1, 7..=7, &[0, 359], 0), each(2000, 1, 7..=7, &[360, 1439], 1), days(8, 9, 1)].concat();
    let from_ten = [each(2000, 1, 1..=1, &[0, 599], 0), each(2000, 1, 1..=1, &[600], 1), days(2, 8, 1), days(9, 9, 0)].concat();
    let second_saturday = [days(1, 7, 0), each(2000, 1, 8..=8, &[359], 0), each(2000, 1, 8..=8, &[360], 1), days(9, 9, 1)].concat();
    let by_turns = [
        each(2000, 1, 1..=1, &[0, 360, 599], 0),
        each(2000, 1, 1..=1, &[600], 2),
        days(2, 7, 2),
        each(2000, 1, 8..=8, &[0, 359], 2),
        each(2000, 1, 8..=8, &[360], 1),
        days(9, 9, 1),
    ];
    vec![
        decided(&planned(&always, &[]), &first),
        decided(&planned(&always, &[fixed, final_friday]), &first),
        ticked(&planned(&[meter(FRI, 360, 900)], &[]), &friday),
        decided(&planned(&holiday, &[fixed]), &none),
        decided(&planned(&holiday, &[final_friday]), &none),
        ticked(&planned(&holiday, &[day_after]), &from_ten),
        decided(&planned(&holiday, &[new_year]), &from_ten),
        decided(&planned(&saturday, &[day_after]), &second_saturday),
        decided(&planned(&saturday, &[new_year]), &second_saturday),
        decided(&planned(&both, &[day_after]), &by_turns.concat()),
    ]
}

/// 29 February and the days of March after it: an entry on holidays alone, the holiday being 29 or 28 February, is in force on the seven
/// days after that date; in common years there is no 29 February.
fn february() -> Vec<Vec<u8>> {
    let site = |day| planned(&[meter(HOL, 600, 900)], &[[1, 2, day, 0, 0]]);
    let march = |year, last: u16| [each(year, 3, 1..=last, &[0, 1439], 1), each(year, 3, last + 1..=8, &[0, 1439], 0)].concat();
    let begins = |year, day: u16| [each(year, 2, day..=day, &[0, 599], 0), each(year, 2, day..=day, &[600, 1439], 1)].concat();
    let leap = |year| {
        let of_29 = [each(year, 2, 28..=28, &ALL_DAY, 0), begins(year, 29), march(year, 7)].concat();
        let of_28 = [begins(year, 28), each(year, 2, 29..=29, &ALL_DAY, 1), march(year, 6)].concat();
        [decided(&site(29), &of_29), decided(&site(28), &of_28)]
    };
    let common = |year| {
        let of_29 = [each(year, 2, 28..=28, &ALL_DAY, 0), each(year, 3, 1..=8, &ALL_DAY, 0)].concat();
        let of_28 = [begins(year, 28), march(year, 7)].concat();
        [decided(&site(29), &of_29), decided(&site(28), &of_28)]
    };
    [[2000, 2004, 2096].map(leap).concat(), [2001, 2099].map(common).concat()].concat()
}

/// The last day of each month is a holiday, and its entry is in force on the first seven days of the next month, which has 28, 29, 30 or 31
/// days itself, or is January of the next year.
fn month_ends() -> Vec<Vec<u8>> {
    let case = |year: u16, february: u16| {
        let ends = [31, february, 31, 30, 31, 30, 31, 31, 30, 31, 30, 31];
        let rows: Vec<[u16; 5]> = (1..).zip(ends).map(|(month, day)| [1, month, day, 0, 0]).collect();
        let site = planned(&[meter(HOL, 600, 900)], &rows);
        let about = |row: &[u16; 5]| {
            let [_, month, day, ..] = *row;
            let (next_year, next) = if month == 12 { (year + 1, 1) } else { (year, month + 1) };
            [(at(year, month, day, 599), 0), (at(year, month, day, 600), 1), (at(next_year, next, 1, 0), 1)]
                .into_iter()
                .chain([(at(next_year, next, 7, 1439), 1), (at(next_year, next, 8, 0), 0)])
                .collect::<Vec<Asked>>()
        };
        decided(&site, &rows.iter().flat_map(about).collect::<Vec<Asked>>())
    };
    vec![case(2025, 28), case(2024, 29), case(2000, 29), case(2098, 28)]
}

/// The first days of months and years, 29 February and the last day of 2099, at midnight: yesterday's weekday has its own entry, from
/// Sunday's, 1, to Saturday's, 7.
fn first_days() -> Vec<u8> {
    let yesterday = [
        (at(2000, 2, 29, 0), 2),
        (at(2000, 3, 1, 0), 3),
        (at(2001, 1, 1, 0), 1),
        (at(2001, 3, 1, 0), 4),
        (at(2004, 2, 29, 0), 7),
        (at(2004, 3, 1, 0), 1),
        (at(2005, 1, 1, 0), 6),
        (at(2025, 2, 1, 0), 6),
        (at(2025, 3, 1, 0), 6),
        (at(2025, 5, 1, 0), 4),
        (at(2025, 8, 1, 0), 5),
        (at(2025, 12, 1, 0), 1),
        (at(2026, 1, 1, 0), 4),
        (at(2096, 2, 29, 0), 3),
        (at(2096, 3, 1, 0), 4),
        (at(2099, 1, 1, 0), 4),
        (at(2099, 3, 1, 0), 7),
        (at(2099, 12, 31, 0), 4),
        (at(2000, 1, 1, 0), 0),
        (at(2000, 1, 2, 0), 7),
    ];
    ticked(&each_weekday(), &yesterday)
}

/// The last day of 2099, a Thursday: seven days back to Thursday's entry before its start, and to a holiday on the 24th; the 23rd is too
/// far.
fn last_day() -> Vec<Vec<u8>> {
    let thursday = planned(&[meter(THU, 360, 900)], &[]);
    let holiday = |day| planned(&[meter(HOL, 360, 900)], &[[1, 12, day, 0, 0]]);
    vec![
        ticked(&thursday, &each(2099, 12, 31..=31, &[0, 359, 360, 1439], 1)),
        ticked(&holiday(24), &each(2099, 12, 30..=31, &[0, 1439], 1)),
        ticked(&holiday(23), &[each(2099, 12, 30..=30, &[0, 1439], 1), each(2099, 12, 31..=31, &[0, 1439], 0)].concat()),
    ]
}

// What is wanted.

/// "Only then is it dark": with no entry at all, at any clock, the place is 0.
fn no_entry() -> Vec<u8> {
    let clocks = [at(2000, 1, 1, 0), at(2000, 1, 8, 0), at(2025, 7, 4, 720), at(2025, 7, 5, 0), at(2099, 12, 31, 1439)];
    ticked(&planned(&[], &[[1, 7, 4, 0, 0]]), &clocks.map(|clock| (clock, 0)))
}

/// An entry of an earlier day is in force as any other is: one that is dark, which is not none, one that is green, and a responsive one
/// with its own table and rate. On the days after Monday, Wednesday and Friday.
fn modes() -> Vec<u8> {
    let mut site = planned(&[[MON, 1200, 0, 0, 0], [WED, 1200, 1, 0, 0], [FRI, 1200, 3, 700, 2]], &[]);
    site.levels = vec![[1, 1, UNUSED, UNUSED, 500], [2, 1, UNUSED, UNUSED, 1200]];
    let busy = |working| [Sample { working, occupied: 30, vehicles: 1, time: 274 }; 6];
    let (tuesday, thursday, saturday, sunday) = (at(2025, 1, 7, 0), at(2025, 1, 9, 0), at(2025, 1, 11, 0), at(2025, 1, 12, 1200));
    let mut ops = Vec::new();
    // no period is completed yet, then one, then one without a good lane
    for (count, working, clock, place) in [
        (60, 1, saturday, 3),
        (60, 1, tuesday, 1),
        (60, 1, thursday, 2),
        (120, 1, tuesday, 1),
        (10, 1, sunday, 3),
        (40, 1, thursday, 2),
        (150, 1, saturday, 3),
        (100, 0, sunday, 3),
        (20, 1, tuesday, 1),
        (40, 1, thursday, 2),
    ] {
        let input = Input { mainline: busy(working), clock, ..passing(NONE) };
        ops.extend([decision(&site, (clock, place)), Op::Ticks(count, input), decision(&site, (clock, place))]);
    }
    from_power_up(&bytes(&site), &ops)
}

/// Commands rule though an entry of two days ago is in force, and its place is given all the same; with none it rules. On Wednesday, and
/// at midnight, when Thursday's own entry begins.
fn commands() -> Vec<u8> {
    let site = planned(&[meter(DAILY & !(MON | TUE | WED), 0, 600), meter(MON, 360, 900)], &[]);
    let clock = at(2025, 1, 9, 0);
    let before = Clock { date: Date { year: 2025, month: 1, day: 8 }, tenth: 863_990 };
    let all = [NONE, DARK, GREEN, fixed(700), RESPONSIVE];
    let mut ops = Vec::new();
    for commands in all.iter().flat_map(|manual| all.iter().map(|centre| [*manual, *centre])) {
        hold(&site, before, commands, 2);
        hold(&site, clock, commands, 1);
        ops.extend([Op::Decide(before, commands), Op::Decide(clock, commands)]);
        if commands.iter().any(|command| command.kind == 0) {
            ops.push(Op::Ticks(10, Input { clock: before, commands, ..quiet(NONE) }));
        }
    }
    from_power_up(&bytes(&site), &ops)
}

pub fn cases() -> Vec<Vec<u8>> {
    let midnight = [first_minute(), runs(), vec![jumps()]];
    let days_back = [one_weekday(), one_weekday_ticks(), most_recent(), latest_start(), begun_today()];
    let holidays = [holiday_alone(), holidays_before(), holiday_today(), vec![holidays_in_a_row()]];
    let calendar = [january_2000(), january_2000_holidays(), february(), month_ends(), vec![first_days()], last_day()];
    let wanted = [vec![no_entry(), modes(), commands()]];
    [&midnight[..], &days_back, &holidays, &calendar, &wanted].concat().concat()
}
