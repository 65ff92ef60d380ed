//! Stored cases of joining two plan lists. Beside each pair of lists stand the places of the first list's entries that are dropped, or it
//! is said that the pair is refused, as one finds it by hand; the rules are held to it. Where a comment has words in quotation marks, they
//! are the request's.

use crate::calendar::Clock;
use crate::files::{site_a, site_with_rows};
use crate::join_run::Case;
use crate::joining::{join, Entry, List, MOST};
use crate::midnight_cases::{meter, DAILY, FRI, HOL, MON, SAT, SUN, THU, TUE, WED};
use crate::periods::Periods;
use crate::site::{Site, UNUSED};
use crate::tick_cases::{at, NONE};
use crate::wanted::decide;

const ALL: u16 = 255;

/// Of most cases: in 2024 there is a 29 February, and 31 March is a Sunday, whose holiday moves.
const YEAR: u16 = 2024;
const HOLIDAYS: [[u16; 5]; 2] = [[1, 7, 4, 0, 0], MARCH_31];
const MARCH_31: [u16; 5] = [1, 3, 31, 0, 1];

// Pairs.

fn pair(first: List, second: List) -> Case {
    Case { first, second, year: YEAR, holidays: HOLIDAYS.to_vec() }
}

/// Two lists, and the places of the first's entries that are dropped.
fn joined(first: &[Entry], second: &[Entry], dropped: &[usize]) -> Case {
    let kept = (1..).zip(first).filter(|(place, _)| !dropped.contains(place)).map(|(_, entry)| *entry);
    let wanted: Vec<Entry> = kept.chain(second.iter().copied()).collect();
    let case = pair(List::of(first), List::of(second));
    assert_eq!(join(&case.first, &case.second), (0, List::of(&wanted)));
    case
}

fn refused(refusal: u8, first: List, second: List) -> Case {
    assert_eq!(join(&first, &second), (refusal, List::of(&[])));
    pair(first, second)
}

fn too_many(first: &[Entry], second: &[Entry]) -> Case {
    refused(17, List::of(first), List::of(second))
}

/// An entry of the standing list and one of the roadworks list, at the same start.
fn standing(days: u16) -> Entry {
    meter(days, 330, 600)
}

fn works(days: u16) -> Entry {
    meter(days, 330, 300)
}

/// So many entries, one a minute.
fn each_minute(many: u16, start: u16) -> Vec<Entry> {
    (0..many).map(|i| meter(DAILY, start + i, 600 + i)).collect()
}

// "All its days."

/// An entry wholly covered: by the same days, by a day more, by all days, and by the same entry.
fn covered() -> Vec<Case> {
    vec![
        joined(&[standing(MON)], &[works(MON)], &[1]),
        joined(&[standing(MON)], &[works(MON | TUE)], &[1]),
        joined(&[standing(MON)], &[works(ALL)], &[1]),
        joined(&[standing(ALL)], &[works(ALL)], &[1]),
        joined(&[standing(MON | WED | HOL)], &[works(MON | WED | FRI | HOL)], &[1]),
        joined(&[standing(SUN | SAT)], &[standing(SUN | SAT)], &[1]),
    ]
}

/// Covered on some of its days alone, or on none, and so kept; in the last ones the Holiday alone is missing.
fn covered_in_part() -> Vec<Case> {
    vec![
        joined(&[standing(MON | TUE)], &[works(MON)], &[]),
        joined(&[standing(MON | TUE)], &[works(TUE | WED)], &[]),
        joined(&[standing(MON)], &[works(TUE)], &[]),
        joined(&[standing(SUN | WED | SAT)], &[works(ALL - WED)], &[]),
        joined(&[standing(ALL)], &[works(DAILY)], &[]),
        joined(&[standing(MON | HOL)], &[works(DAILY)], &[]),
        joined(&[standing(HOL)], &[works(DAILY)], &[]),
    ]
}

/// "One entry of the second": two together, or eight, do not drop it; one among them that does it alone drops it.
fn covered_together() -> Vec<Case> {
    let each_day: Vec<Entry> = (0..8).map(|day| works(1 << day)).collect();
    vec![
        joined(&[standing(MON | TUE)], &[works(MON), works(TUE)], &[]),
        joined(&[standing(MON | TUE)], &[works(MON | WED), works(TUE | WED)], &[]),
        joined(&[standing(ALL)], &[works(DAILY), works(HOL)], &[]),
        joined(&[standing(ALL)], &each_day, &[]),
        joined(&[standing(MON | TUE)], &[works(MON), works(TUE), works(MON | TUE)], &[1]),
        joined(&[standing(MON | TUE)], &[works(MON | TUE | WED), works(MON), works(TUE), works(ALL)], &[1]),
    ]
}

/// Each of the eight days alone missing in the second's entry, or in the first's; each day alone in both, and in the first's alone.
fn each_day() -> Vec<Case> {
    let of_day = |day: u16| {
        let one = 1 << day;
        [
            joined(&[standing(ALL)], &[works(ALL - one)], &[]),
            joined(&[standing(ALL - one)], &[works(ALL)], &[1]),
            joined(&[standing(one)], &[works(one)], &[1]),
            joined(&[standing(one)], &[works(ALL - one)], &[]),
        ]
    };
    (0..8).flat_map(of_day).collect()
}

// "The same start."

/// The same days, and another start: a minute beside it, the ends of the day, and with the same low byte.
fn starts() -> Vec<Case> {
    let on_mondays = |starts: &[u16]| starts.iter().map(|start| meter(MON, *start, 600)).collect::<Vec<Entry>>();
    vec![
        joined(&on_mondays(&[329]), &[works(MON)], &[]),
        joined(&on_mondays(&[331]), &[works(ALL)], &[]),
        joined(&on_mondays(&[0, 74, 329, 330, 331, 586, 1439]), &[works(MON)], &[4]),
        joined(&on_mondays(&[0, 1, 1438, 1439]), &[meter(MON, 0, 300), meter(MON, 1439, 300)], &[1, 4]),
        joined(&on_mondays(&[1439]), &[meter(MON, 0, 300)], &[]),
        // the days are covered at another start, and some days at this one
        joined(&[standing(MON | TUE)], &[works(MON), meter(ALL, 331, 300), meter(ALL, 329, 300)], &[]),
    ]
}

// What does not decide.

/// Mode, rate and table differ, or one of them alone.
fn modes() -> Vec<Case> {
    let each_mode = [[MON, 330, 0, 0, 0], [MON, 330, 1, 0, 0], [MON, 330, 2, 600, 0], [MON, 330, 3, 600, 1]];
    let mut out: Vec<Case> = each_mode.iter().map(|by| joined(&each_mode, &[*by], &[1, 2, 3, 4])).collect();
    out.extend([
        joined(&[[MON, 330, 3, 600, 1]], &[[MON, 330, 3, 600, 2]], &[1]),
        joined(&[[MON, 330, 3, 600, 1]], &[[MON, 330, 3, 601, 1]], &[1]),
    ]);
    out
}

/// Several dropped: by one entry, each by its own, the first and the last, every other one, all.
fn several() -> Vec<Case> {
    let first = [standing(MON), meter(TUE, 400, 700), standing(TUE), standing(WED | THU), meter(ALL, 900, 800), meter(SAT, 330, 500)];
    vec![
        joined(&first, &[works(MON | TUE | SAT)], &[1, 3, 6]),
        joined(&first, &[works(SAT), works(WED | THU | FRI), works(TUE)], &[3, 4, 6]),
        joined(&first, &[works(SAT), meter(ALL, 400, 300), works(MON | HOL)], &[1, 2, 6]),
        joined(&first, &[meter(ALL, 400, 300), meter(DAILY, 900, 300), works(WED)], &[2]),
        joined(&first, &[meter(ALL, 900, 300), works(ALL), meter(TUE, 400, 300)], &[1, 2, 3, 4, 5, 6]),
        joined(&first, &[meter(ALL, 899, 300), meter(ALL, 329, 300), meter(MON, 400, 300)], &[]),
    ]
}

/// A duplicate within the first list, kept unless the second covers it, and within the second. An entry is dropped for one of the second
/// alone, and none of the second is dropped.
fn duplicates() -> Vec<Case> {
    vec![
        joined(&[standing(MON), standing(MON)], &[works(TUE)], &[]),
        joined(&[standing(MON), standing(MON)], &[], &[]),
        joined(&[standing(MON), standing(TUE), standing(MON)], &[works(MON)], &[1, 3]),
        joined(&[standing(MON), standing(MON | TUE)], &[works(MON)], &[1]),
        joined(&[standing(TUE)], &[works(MON), works(MON)], &[]),
        joined(&[standing(MON)], &[works(MON), works(MON)], &[1]),
        joined(&[], &[works(MON), standing(MON), works(ALL)], &[]),
        joined(&[standing(ALL)], &[works(MON)], &[]),
        joined(&[standing(ALL), standing(MON)], &[works(MON), works(MON | TUE)], &[2]),
    ]
}

// How many.

fn empty_and_full() -> Vec<Case> {
    let full = each_minute(16, 100);
    let backwards: Vec<Entry> = full.iter().rev().copied().collect();
    let every: Vec<usize> = (1..=16).collect();
    vec![
        joined(&[], &[], &[]),
        joined(&[standing(MON)], &[], &[]),
        joined(&[], &[works(MON)], &[]),
        joined(&full, &[], &[]),
        joined(&[], &full, &[]),
        // both full and equal: the second remains, in its own order
        joined(&full, &full, &every),
        joined(&full, &backwards, &every),
        // both full with nothing covered: 32 would remain
        too_many(&full, &each_minute(16, 116)),
        too_many(&each_minute(16, 116), &full),
    ]
}

/// Just 16 and just 17 remaining, with nothing dropped.
fn sixteen() -> Vec<Case> {
    let lists = |many: u16, others: u16| (each_minute(many, 100), each_minute(others, 500));
    let fits = [(8, 8), (1, 15), (15, 1), (7, 9)].map(|(a, b)| lists(a, b)).map(|(a, b)| joined(&a, &b, &[]));
    let too_long = [(8, 9), (9, 8), (1, 16), (16, 1), (2, 15), (15, 2)].map(|(a, b)| lists(a, b)).map(|(a, b)| too_many(&a, &b));
    [&fits[..], &too_long].concat()
}

/// The same with some dropped: the second list begins with the starts of the first's last entries, or has those of its first ones.
fn sixteen_with_dropped() -> Vec<Case> {
    let with_works = |works: Vec<Entry>, others: u16| [works, each_minute(others, 500)].concat();
    let last = |many: u16| meter(DAILY, 100 + many - 1, 200);
    let first = |many: u16| each_minute(many, 100);
    vec![
        // 16 remain only because one is dropped, or some are
        joined(&first(16), &[last(16)], &[16]),
        joined(&first(1), &with_works(vec![last(1)], 15), &[1]),
        joined(&first(9), &with_works(vec![last(9)], 7), &[9]),
        joined(&first(12), &with_works(first(6), 4), &[1, 2, 3, 4, 5, 6]),
        joined(&first(16), &with_works(first(8), 0), &[1, 2, 3, 4, 5, 6, 7, 8]),
        // 17 remain though one is dropped, or some are, or all but one
        too_many(&first(16), &[last(16), standing(MON)]),
        too_many(&first(2), &with_works(vec![last(1)], 15)),
        too_many(&first(9), &with_works(vec![last(9)], 8)),
        too_many(&first(12), &with_works(first(6), 5)),
        too_many(&first(16), &with_works(first(15), 1)),
        // 17 remain since one of 16 is covered but on one day, or by two together
        too_many(&first(16), &[meter(DAILY - SUN, 100, 200)]),
        too_many(&first(15), &[meter(MON, 100, 200), meter(DAILY - MON, 100, 200)]),
    ]
}

// Order.

/// Equal starts in the joined list, whose order decides what is in force: of the first list, of the second, of both; and starts that fall.
fn order() -> Vec<Case> {
    let (a, b, c) = (standing(MON | TUE), meter(MON | WED, 330, 700), meter(TUE | WED, 330, 800));
    let (w, x) = (works(MON), meter(MON | HOL, 330, 200));
    let falling: Vec<Entry> = each_minute(5, 700).into_iter().rev().collect();
    vec![
        joined(&[a, b, c], &[w], &[]),
        joined(&[c, b, a], &[w], &[]),
        joined(&[a, b, c], &[w, x], &[]),
        joined(&[b, a, c], &[x, w], &[]),
        joined(&[a, w, b], &[x, c], &[2]),
        joined(&[w], &[a, b, c], &[1]),
        joined(&falling, &[meter(DAILY, 702, 300), meter(DAILY, 100, 300)], &[3]),
    ]
}

// 14.

/// Lists that no file could give: by the count, by a number in use, by one beyond. Their four rows have the modes 2, 3, 0 and 1.
fn spoilt_lists() -> Vec<List> {
    let rows = List::of(&site_with_rows().entries);
    let full = List::of(&each_minute(16, 100));
    let with_count = |count| List { count, ..rows.clone() };
    let with = |list: &List, place: usize, number| {
        let mut list = list.clone();
        list.numbers[place - 1] = number;
        list
    };
    // more than there may be; a row of zeros in use; a row or all rows beyond
    let mut out: Vec<List> = [17, 255, UNUSED, 5, 16, 3, 0].map(with_count).to_vec();
    out.push(List { count: 17, ..full.clone() });
    // days, start, mode, rate and table of mode 2; rate and table of mode 3, of mode 0 and of mode 1; days and start of the last row
    let of_mode_2 = [(1, 0), (1, 256), (1, UNUSED), (2, 1440), (2, UNUSED), (3, 4), (3, UNUSED), (4, 0), (4, 149), (4, 1801), (5, 1)];
    let of_mode_3 = [(9, 0), (9, 149), (9, 1801), (10, 0), (10, 5)];
    let of_others = [(14, 1), (14, 150), (15, 1), (19, 1), (20, 1), (16, 0), (17, 1440)];
    let in_use = [&of_mode_2[..], &of_mode_3, &of_others].concat();
    out.extend(in_use.iter().map(|(place, number)| with(&rows, *place, *number)));
    // the first, the last number of a row and the very last beyond the count, also beyond a count of 0
    out.extend([21, 25, 80].map(|place| with(&rows, place, 1)));
    out.extend([1, 80].map(|place| with(&List::of(&[]), place, 1)));
    // the last row of a full list: days, start and table
    out.extend([(76, 0), (77, 1440), (80, 1)].map(|(place, number)| with(&full, place, number)));
    out
}

/// Each as the first list, as the second, and every third as both with the next one.
fn spoilt() -> Vec<Case> {
    let lists = spoilt_lists();
    let sound = || List::of(&[meter(ALL, 330, 300), meter(ALL, 1170, 300)]);
    let mut out: Vec<Case> = lists.iter().map(|list| refused(14, list.clone(), sound())).collect();
    out.extend(lists.iter().map(|list| refused(14, sound(), list.clone())));
    out.extend(lists.windows(2).step_by(3).map(|two| refused(14, two[0].clone(), two[1].clone())));
    out
}

/// "Order: 14 .., 17": more than 16 would remain, and the second list is spoilt, or the first is.
fn spoilt_and_too_many() -> Vec<Case> {
    let full = List::of(&each_minute(16, 100));
    let other = List::of(&each_minute(16, 116));
    let last = |list: &List, number| {
        let mut list = list.clone();
        list.numbers[79] = number;
        list
    };
    let beyond = List { count: 15, ..other.clone() };
    vec![
        refused(14, full.clone(), last(&other, 1)),
        refused(14, last(&full, 1), other.clone()),
        refused(14, full.clone(), List { count: 17, ..other.clone() }),
        refused(14, full.clone(), beyond.clone()),
        refused(14, beyond, full.clone()),
        refused(17, full, other),
    ]
}

/// Every number at an end of its range, in the first list and in the second.
fn ends() -> Vec<Case> {
    let rows = [[1, 0, 2, 150, 0], [255, 1439, 2, 1800, 0], [128, 0, 3, 150, 1], [64, 1439, 3, 1800, 4], [1, 1439, 0, 0, 0]];
    vec![
        joined(&rows, &[works(MON)], &[]),
        joined(&[works(MON)], &rows, &[]),
        joined(&rows, &rows, &[1, 2, 3, 4, 5]),
        joined(&rows, &[[255, 0, 1, 0, 0]], &[1, 3]),
    ]
}

// Years.

fn in_year(year: u16, holidays: &[[u16; 5]], case: Case) -> Case {
    Case { year, holidays: holidays.to_vec(), ..case }
}

/// The entry of the joined list in force at some clocks, as one finds it on a calendar, none where nothing is.
fn held(case: Case, asked: &[(Clock, Option<Entry>)]) -> Case {
    let entries = join(&case.first, &case.second).1.entries().expect("a joined list");
    let site = Site { entries, holidays: case.holidays.clone(), ..site_a() };
    for (clock, entry) in asked {
        let place = decide(&site, *clock, [NONE; 2], &Periods::default()).entry;
        assert_eq!((place > 0).then(|| site.entries[place - 1]), *entry, "the entry in force at {clock:?}");
    }
    case
}

/// An entry for each day type from midnight on, some of them covered; 8 is the Holiday's.
fn each_type(second: &[Entry], dropped: &[usize]) -> Case {
    joined(&(0..8).map(|day| meter(1 << day, 0, 900 + day)).collect::<Vec<Entry>>(), second, dropped)
}

/// Holidays that move, to 1 April and over the end of a year and from 29 February; floating ones, and days after.
fn years_of_holidays() -> Vec<Case> {
    let week = || each_type(&[meter(SUN | MON, 0, 300), meter(HOL, 720, 200)], &[1, 2]);
    let works = |rate| Some(meter(SUN | MON, 0, rate));
    let (noon, holiday) = (Some(meter(HOL, 720, 200)), Some(meter(HOL, 0, 907)));
    let thanksgiving = [[2, 11, 4, 4, 0], [3, 11, 4, 4, 0], [2, 5, 5, 1, 0]];
    let year_end = [[1, 12, 31, 0, 1]];
    let leap_day = [[1, 2, 29, 0, 1]];
    let covered = || each_type(&[meter(HOL | SAT, 0, 300)], &[7, 8]);
    vec![
        held(
            in_year(2024, &[MARCH_31], week()),
            &[(at(2024, 3, 31, 900), works(300)), (at(2024, 4, 1, 719), holiday), (at(2024, 4, 1, 720), noon)],
        ),
        in_year(2025, &[MARCH_31], week()),
        in_year(2024, &[[1, 3, 31, 0, 0]], week()),
        held(
            in_year(2024, &thanksgiving, week()),
            &[(at(2024, 11, 28, 0), holiday), (at(2024, 11, 29, 0), holiday), (at(2024, 5, 27, 800), noon)],
        ),
        in_year(2096, &thanksgiving, covered()),
        held(in_year(2024, &year_end, week()), &[(at(2024, 1, 1, 0), holiday), (at(2024, 12, 31, 0), holiday)]),
        held(in_year(2023, &year_end, week()), &[(at(2023, 12, 31, 0), works(300))]),
        in_year(2001, &year_end, covered()),
        held(in_year(2004, &leap_day, week()), &[(at(2004, 2, 29, 0), works(300)), (at(2004, 3, 1, 0), holiday)]),
        in_year(2005, &leap_day, week()),
        in_year(2032, &[leap_day[0], [2, 2, 5, 0, 0], [3, 2, 5, 0, 0]], covered()),
    ]
}

/// Entries for the Holiday alone look back over midnight, to the seventh day and not to the eighth; those of one weekday from that weekday
/// before its start.
fn years_that_look_back() -> Vec<Case> {
    let fourth = [[1, 7, 4, 0, 0]];
    let day = |day, minute| at(2025, 7, day, minute);
    let (standing, works) = (meter(HOL, 600, 900), meter(HOL, 600, 300));
    let later = meter(HOL, 720, 400);
    let monday = meter(MON, 360, 900);
    vec![
        held(
            in_year(2025, &fourth, joined(&[standing], &[works], &[1])),
            &[(day(4, 599), None), (day(4, 600), Some(works)), (day(11, 1439), Some(works)), (day(12, 0), None)],
        ),
        held(
            in_year(2025, &fourth, joined(&[standing], &[later], &[])),
            &[(day(4, 600), Some(standing)), (day(4, 720), Some(later)), (day(11, 0), Some(later)), (day(12, 0), None)],
        ),
        held(in_year(2025, &fourth, joined(&[later], &[standing], &[])), &[(day(5, 0), Some(later)), (day(12, 0), None)]),
        // two holidays eight days apart, and seven
        held(
            in_year(2025, &[fourth[0], [1, 7, 12, 0, 0]], joined(&[standing], &[works], &[1])),
            &[(day(12, 0), None), (day(12, 600), Some(works)), (day(19, 1439), Some(works)), (day(20, 0), None)],
        ),
        held(in_year(2025, &[fourth[0], [1, 7, 11, 0, 0]], joined(&[standing], &[works], &[1])), &[(day(11, 0), Some(works))]),
        // Monday's before 06:00 is that of seven days ago
        held(
            in_year(2025, &fourth, joined(&[monday], &[meter(MON, 360, 300)], &[1])),
            &[(day(14, 359), Some(meter(MON, 360, 300))), (at(2025, 1, 1, 0), Some(meter(MON, 360, 300)))],
        ),
        // and where that Monday was a holiday, there is none
        held(
            in_year(2025, &[[1, 7, 7, 0, 0]], joined(&[monday], &[meter(TUE, 0, 300)], &[])),
            &[(day(7, 360), Some(meter(TUE, 0, 300))), (day(14, 359), Some(meter(TUE, 0, 300)))],
        ),
        held(
            in_year(2025, &[[1, 7, 7, 0, 0]], joined(&[monday], &[meter(MON, 361, 300)], &[])),
            &[(day(7, 1439), Some(meter(MON, 361, 300))), (day(8, 0), None), (day(14, 359), None), (day(14, 360), Some(monday))],
        ),
        // no holiday in the year, and an entry for no other day
        held(in_year(2025, &[], joined(&[standing], &[later], &[])), &[(day(4, 720), None)]),
    ]
}

/// 2000, whose first days look back to nothing, with and without a holiday there; 2099; and years that there are not.
fn ends_of_years() -> Vec<Case> {
    let (monday, friday) = (meter(MON, 360, 900), meter(FRI, 360, 700));
    let pair = || joined(&[monday, meter(MON, 0, 800)], &[meter(MON | TUE, 360, 300), friday], &[1]);
    let holiday = || joined(&[meter(HOL, 0, 900), friday], &[meter(HOL, 0, 300)], &[1]);
    let first = |day, minute| at(2000, 1, day, minute);
    let no_years = [1999, 2100, 0, 1, 99, 1900, UNUSED].map(|year| in_year(year, &HOLIDAYS, pair()));
    let mut out = vec![
        // 1 January is a Saturday
        held(in_year(2000, &[], pair()), &[(first(1, 0), None), (first(2, 1439), None), (first(3, 0), Some(meter(MON, 0, 800)))]),
        held(in_year(2000, &[[1, 1, 1, 0, 0]], holiday()), &[(first(1, 0), Some(meter(HOL, 0, 300)))]),
        held(in_year(2000, &[[1, 12, 31, 0, 1]], holiday()), &[(first(1, 0), None), (first(7, 359), None), (first(7, 360), Some(friday))]),
        // 31 December 1999 is no holiday that is looked back to, and the day after one may be
        held(in_year(2000, &[[1, 12, 31, 0, 0]], holiday()), &[(first(1, 0), None)]),
        held(in_year(2000, &[[3, 12, 5, 5, 0]], holiday()), &[(first(1, 0), Some(meter(HOL, 0, 300)))]),
        in_year(2001, &[], pair()),
        held(in_year(2099, &HOLIDAYS, pair()), &[(at(2099, 12, 31, 1439), Some(meter(MON | TUE, 360, 300)))]),
        in_year(2099, &[[1, 12, 31, 0, 0], [2, 12, 5, 4, 0]], holiday()),
    ];
    out.extend(no_years);
    out
}

/// Full lists all year long, and as many holidays as there may be: each month's first Monday, and its third Friday's day after.
fn full_years() -> Vec<Case> {
    let rows = |days: fn(u16) -> u16, rate: u16| (0..16).map(|i| meter(days(i), 90 * i, rate + i)).collect::<Vec<Entry>>();
    let holidays: Vec<[u16; 5]> = (1..=8).flat_map(|month| [[2, month, 1, 1, 0], [3, month, 3, 5, 0]]).collect();
    let by_turns = rows(|i| 1 << (i % 8), 900);
    let every: Vec<usize> = (1..=MOST).collect();
    vec![
        in_year(2028, &holidays, joined(&by_turns, &rows(|_| ALL, 300), &every)),
        in_year(2028, &holidays, joined(&by_turns, &rows(|i| 3 << (i % 7), 300)[..7], &[1, 2, 3, 4, 5, 6, 7])),
        in_year(2027, &holidays, joined(&by_turns[8..], &rows(|i| ALL - (1 << (i % 8)), 300)[8..], &[])),
    ]
}

pub fn cases() -> Vec<Vec<u8>> {
    let days = [covered(), covered_in_part(), covered_together(), each_day(), starts(), modes(), several(), duplicates()].concat();
    let counts = [empty_and_full(), sixteen(), sixteen_with_dropped(), order()].concat();
    let spoilt = [spoilt(), spoilt_and_too_many(), ends()].concat();
    let years = [years_of_holidays(), years_that_look_back(), ends_of_years(), full_years()].concat();
    let mut out: Vec<Vec<u8>> = [days, counts, spoilt, years].concat().iter().map(Case::bytes).collect();
    // cut behind the first list, within the second, and before everything: as if zeros stood behind
    let whole = joined(&[standing(MON)], &[works(TUE)], &[]).bytes();
    out.extend([162, 174, 0].map(|end| whole[..end].to_vec()));
    out
}
