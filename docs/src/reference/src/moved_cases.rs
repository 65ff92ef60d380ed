//! Stored cases of fixed dates that move to the next day when they are a Sunday: decisions and ticks on the days about them, over the ends
//! of months and years and 29 February, beside other holidays, on the days that look back over them, and in runs over midnight.
//! Beside each day stands its day type, or the entry that should be in force there, as one finds it on a calendar; the rules are held to
//! it. Where a comment has words in quotation marks, they are the request's.

use crate::calendar::Date;
use crate::call_run::{from_power_up, Op};
use crate::midnight_cases::{decided, decision, each, each_weekday, meter, over, planned, tick, ticked, Asked, DAILY, HOL, MON, SUN};
use crate::nearest_cases::passing;
use crate::site::{bytes, Site};
use crate::tick::Input;
use crate::tick_cases::{at, fixed, in_demand, GREEN, NONE};

/// 31 March, which moves, and the same that does not.
const MOVES: [u16; 5] = [1, 3, 31, 0, 1];
const FIXED: [u16; 5] = [1, 3, 31, 0, 0];
const NEW_YEARS_EVE: [u16; 5] = [1, 12, 31, 0, 1];
const FEBRUARY_29: [u16; 5] = [1, 2, 29, 0, 1];

// The places of the entries of `typed`: which is in force says of what type the day is.
const SUNDAY: usize = 1;
const MONDAY: usize = 2;
const TUESDAY: usize = 3;
const WEDNESDAY: usize = 4;
const THURSDAY: usize = 5;
const FRIDAY: usize = 6;
const SATURDAY: usize = 7;
const HOLIDAY: usize = 8;

/// An entry for each day type, from midnight on.
fn typed(holidays: &[[u16; 5]]) -> Site {
    planned(&(0..8).map(|day| meter(1 << day, 0, 900 + day)).collect::<Vec<_>>(), holidays)
}

/// At midnight and in the last minute.
const BOTH_ENDS: [u32; 2] = [0, 1439];

/// Days, each with the entry in force all day long.
fn on(days: &[(u16, u16, u16, usize)]) -> Vec<Asked> {
    days.iter().flat_map(|(year, month, day, place)| each(*year, *month, *day..=*day, &BOTH_ENDS, *place)).collect()
}

/// The days of a month from one on, each with its entry.
fn from_day(year: u16, month: u16, day: u16, places: &[usize]) -> Vec<Asked> {
    (day..).zip(places).flat_map(|(day, place)| on(&[(year, month, day, *place)])).collect()
}

/// A decision at each clock, and a tick at midnight.
fn begun(site: &Site, asked: &[Asked]) -> Vec<u8> {
    let at_clock = |asked: &Asked| match asked.0.tenth {
        0 => vec![decision(site, *asked), tick(site, *asked)],
        _ => vec![decision(site, *asked)],
    };
    from_power_up(&bytes(site), &asked.iter().flat_map(at_clock).collect::<Vec<Op>>())
}

/// Four days from 30 March on.
fn march(year: u16, places: [usize; 4]) -> Vec<Asked> {
    let [a, b, c, d] = places;
    on(&[(year, 3, 30, a), (year, 3, 31, b), (year, 4, 1, c), (year, 4, 2, d)])
}

/// Four days from 30 December on.
fn december(year: u16, places: [usize; 4]) -> Vec<Asked> {
    let [a, b, c, d] = places;
    on(&[(year, 12, 30, a), (year, 12, 31, b), (year + 1, 1, 1, c), (year + 1, 1, 2, d)])
}

// The day and the next.

/// "The manual moves 31 March to 1 April when it falls on Sunday", and "with it set, 1 April 2024 is the holiday": with it, without it, and
/// with no holiday at all. "A moved holiday leaves its Sunday an ordinary one."
fn march_2024() -> Vec<Vec<u8>> {
    vec![
        begun(&typed(&[MOVES]), &march(2024, [SATURDAY, SUNDAY, HOLIDAY, TUESDAY])),
        begun(&typed(&[FIXED]), &march(2024, [SATURDAY, HOLIDAY, MONDAY, TUESDAY])),
        begun(&typed(&[]), &march(2024, [SATURDAY, SUNDAY, MONDAY, TUESDAY])),
    ]
}

/// "When it falls on Sunday": on every other weekday it stays, with the fifth number and without.
fn march_of_other_years() -> Vec<Vec<u8>> {
    let asked = [
        march(2025, [SUNDAY, HOLIDAY, TUESDAY, WEDNESDAY]),
        march(2026, [MONDAY, HOLIDAY, WEDNESDAY, THURSDAY]),
        march(2027, [TUESDAY, HOLIDAY, THURSDAY, FRIDAY]),
        march(2022, [WEDNESDAY, HOLIDAY, FRIDAY, SATURDAY]),
        march(2023, [THURSDAY, HOLIDAY, SATURDAY, SUNDAY]),
        march(2029, [FRIDAY, HOLIDAY, SUNDAY, MONDAY]),
    ];
    vec![begun(&typed(&[MOVES]), &asked.concat()), decided(&typed(&[FIXED]), &asked.concat())]
}

/// The years of 2000 to 2099 whose 31 March, 31 December and 29 February are Sundays.
const MARCH_SUNDAYS: [u16; 14] = [2002, 2013, 2019, 2024, 2030, 2041, 2047, 2052, 2058, 2069, 2075, 2080, 2086, 2097];
const DECEMBER_SUNDAYS: [u16; 14] = [2000, 2006, 2017, 2023, 2028, 2034, 2045, 2051, 2056, 2062, 2073, 2079, 2084, 2090];
const FEBRUARY_SUNDAYS: [u16; 4] = [2004, 2032, 2060, 2088];

/// Each year, with the first entry in force on all days but holidays and the second on these.
fn every_year() -> Vec<Vec<u8>> {
    let site = |row| planned(&[meter(DAILY, 0, 900), meter(HOL, 0, 600)], &[row]);
    let [other, holiday] = [1, 2];
    let swapped = |sunday: bool| if sunday { [other, holiday] } else { [holiday, other] };
    let noon = |year, month, day, place| (at(year, month, day, 720), place);
    let march = |year| {
        let [last, first] = swapped(MARCH_SUNDAYS.contains(&year));
        [noon(year, 3, 31, last), noon(year, 4, 1, first)]
    };
    // "The move may cross a month or a year"
    let december = |year| {
        let [last, first] = swapped(DECEMBER_SUNDAYS.contains(&year));
        [noon(year, 12, 31, last), noon(year + 1, 1, 1, first)]
    };
    // without a 29 February there is no holiday, neither on 28 February nor on 1 or 2 March
    let february = |year: u16| {
        let [last, first] = if year % 4 == 0 { swapped(FEBRUARY_SUNDAYS.contains(&year)) } else { [other; 2] };
        let leap = (year % 4 == 0).then(|| noon(year, 2, 29, last));
        [noon(year, 2, 28, other), noon(year, 3, 1, first), noon(year, 3, 2, other)].into_iter().chain(leap)
    };
    let about_december = (2000..2099).flat_map(december).chain([noon(2000, 1, 1, other), noon(2099, 12, 31, holiday)]);
    vec![
        decided(&site(MOVES), &(2000..2100).flat_map(march).collect::<Vec<Asked>>()),
        decided(&site(NEW_YEARS_EVE), &about_december.collect::<Vec<Asked>>()),
        decided(&site(FEBRUARY_29), &(2000..2100).flat_map(february).collect::<Vec<Asked>>()),
    ]
}

// Over the ends of months and years.

/// "The move may cross a month or a year": from 31 December to 1 January.
fn across_the_year() -> Vec<Vec<u8>> {
    let moved = [2023, 2028, 2034].map(|year| december(year, [SATURDAY, SUNDAY, HOLIDAY, TUESDAY]));
    let early_and_late = [2000, 2090].map(|year| december(year, [SATURDAY, SUNDAY, HOLIDAY, TUESDAY]));
    // on a Tuesday; and on a Saturday, before a Sunday that no holiday has left
    let stays = [december(2024, [MONDAY, HOLIDAY, WEDNESDAY, THURSDAY]), december(2022, [FRIDAY, HOLIDAY, SUNDAY, MONDAY])];
    let without = december(2023, [SATURDAY, HOLIDAY, MONDAY, TUESDAY]);
    vec![
        begun(&typed(&[NEW_YEARS_EVE]), &moved.concat()),
        decided(&typed(&[NEW_YEARS_EVE]), &early_and_late.concat()),
        begun(&typed(&[NEW_YEARS_EVE]), &stays.concat()),
        decided(&typed(&[[1, 12, 31, 0, 0]]), &without),
    ]
}

/// 29 February: on a Sunday it moves to 1 March, in other leap years it stays. A common year has none, and so no holiday, whatever the
/// weekday of its 1 March.
fn february_29() -> Vec<Vec<u8>> {
    let leap = |year, places: [usize; 4]| {
        let [a, b, c, d] = places;
        on(&[(year, 2, 28, a), (year, 2, 29, b), (year, 3, 1, c), (year, 3, 2, d)])
    };
    let common = |year, places: [usize; 4]| {
        let [a, b, c, d] = places;
        on(&[(year, 2, 28, a), (year, 3, 1, b), (year, 3, 2, c), (year, 3, 3, d)])
    };
    let moved = |year| leap(year, [SATURDAY, SUNDAY, HOLIDAY, TUESDAY]);
    let stays = [
        leap(2016, [SUNDAY, HOLIDAY, TUESDAY, WEDNESDAY]),
        leap(2000, [MONDAY, HOLIDAY, WEDNESDAY, THURSDAY]),
        leap(2012, [TUESDAY, HOLIDAY, THURSDAY, FRIDAY]),
        leap(2024, [WEDNESDAY, HOLIDAY, FRIDAY, SATURDAY]),
        leap(2008, [THURSDAY, HOLIDAY, SATURDAY, SUNDAY]),
        leap(2020, [FRIDAY, HOLIDAY, SUNDAY, MONDAY]),
    ];
    let none = [
        common(2027, [SUNDAY, MONDAY, TUESDAY, WEDNESDAY]),
        common(2021, [SUNDAY, MONDAY, TUESDAY, WEDNESDAY]),
        common(2022, [MONDAY, TUESDAY, WEDNESDAY, THURSDAY]),
        common(2023, [TUESDAY, WEDNESDAY, THURSDAY, FRIDAY]),
        common(2018, [WEDNESDAY, THURSDAY, FRIDAY, SATURDAY]),
        common(2019, [THURSDAY, FRIDAY, SATURDAY, SUNDAY]),
        common(2025, [FRIDAY, SATURDAY, SUNDAY, MONDAY]),
        common(2026, [SATURDAY, SUNDAY, MONDAY, TUESDAY]),
        common(2099, [SATURDAY, SUNDAY, MONDAY, TUESDAY]),
    ];
    let without = leap(2032, [SATURDAY, HOLIDAY, MONDAY, TUESDAY]);
    vec![
        begun(&typed(&[FEBRUARY_29]), &moved(2032)),
        decided(&typed(&[FEBRUARY_29]), &[2004, 2060, 2088].map(moved).concat()),
        begun(&typed(&[FEBRUARY_29]), &stays.concat()),
        begun(&typed(&[FEBRUARY_29]), &none[..2].concat()),
        decided(&typed(&[FEBRUARY_29]), &none[2..].concat()),
        decided(&typed(&[[1, 2, 29, 0, 0]]), &without),
    ]
}

/// 28 February: it moves to 1 March in a common year, and to 29 February in a leap year, which may be a holiday of its own.
fn february_28() -> Vec<Vec<u8>> {
    let february_28 = [1, 2, 28, 0, 1];
    let alone = [
        on(&[(2027, 2, 27, SATURDAY), (2027, 2, 28, SUNDAY), (2027, 3, 1, HOLIDAY), (2027, 3, 2, TUESDAY)]),
        on(&[(2016, 2, 27, SATURDAY), (2016, 2, 28, SUNDAY), (2016, 2, 29, HOLIDAY), (2016, 3, 1, TUESDAY)]),
        on(&[(2025, 2, 27, THURSDAY), (2025, 2, 28, HOLIDAY), (2025, 3, 1, SATURDAY), (2025, 3, 2, SUNDAY)]),
        on(&[(2032, 2, 27, FRIDAY), (2032, 2, 28, HOLIDAY), (2032, 2, 29, SUNDAY), (2032, 3, 1, MONDAY)]),
    ];
    let both = [
        on(&[(2027, 2, 28, SUNDAY), (2027, 3, 1, HOLIDAY), (2027, 3, 2, TUESDAY)]),
        on(&[(2016, 2, 28, SUNDAY), (2016, 2, 29, HOLIDAY), (2016, 3, 1, TUESDAY), (2016, 3, 2, WEDNESDAY)]),
        on(&[(2032, 2, 28, HOLIDAY), (2032, 2, 29, SUNDAY), (2032, 3, 1, HOLIDAY), (2032, 3, 2, TUESDAY)]),
    ];
    vec![begun(&typed(&[february_28]), &alone.concat()), decided(&typed(&[february_28, FEBRUARY_29]), &both.concat())]
}

/// The last day of each month in a year in which it is a Sunday, and in one in which it is a Saturday: then the next day is a Sunday that
/// no holiday has left.
fn month_ends() -> Vec<Vec<u8>> {
    let ends = [31, 28, 31, 30, 31, 30, 31, 31, 30, 31, 30, 31];
    let rows: Vec<[u16; 5]> = (1..).zip(ends).map(|(month, day)| [1, month, day, 0, 1]).collect();
    let sundays = [2027, 2027, 2024, 2023, 2026, 2024, 2022, 2025, 2029, 2027, 2025, 2028];
    let saturdays = [2026, 2026, 2029, 2022, 2025, 2029, 2027, 2024, 2028, 2026, 2024, 2022];
    let about = |years: [u16; 12], places: [usize; 3]| {
        let month = |k: usize| {
            let (year, month) = (years[k], k as u16 + 1);
            let (next_year, next) = if month == 12 { (year + 1, 1) } else { (year, month + 1) };
            on(&[(year, month, ends[k], places[0]), (next_year, next, 1, places[1]), (next_year, next, 2, places[2])])
        };
        (0..12).flat_map(month).collect::<Vec<Asked>>()
    };
    vec![
        decided(&typed(&rows), &about(sundays, [SUNDAY, HOLIDAY, TUESDAY])),
        decided(&typed(&rows), &about(saturdays, [HOLIDAY, SUNDAY, MONDAY])),
    ]
}

/// The first and the last days: 31 December 1999 was a Friday, and nothing moves to 1 January 2000, a Saturday. 31 December 2099 is a
/// Thursday, and stays.
fn first_and_last_days() -> Vec<Vec<u8>> {
    let first = |places: [usize; 4]| from_day(2000, 1, 1, &places);
    let last = |from, places: [usize; 3]| from_day(2099, 12, from, &places);
    let new_years_day = [1, 1, 1, 0, 1];
    vec![
        begun(&typed(&[NEW_YEARS_EVE]), &first([SATURDAY, SUNDAY, MONDAY, TUESDAY])),
        decided(&typed(&[new_years_day]), &first([HOLIDAY, SUNDAY, MONDAY, TUESDAY])),
        begun(&typed(&[[1, 1, 2, 0, 1]]), &first([SATURDAY, SUNDAY, HOLIDAY, TUESDAY])),
        decided(&typed(&[[1, 1, 2, 0, 0]]), &first([SATURDAY, HOLIDAY, MONDAY, TUESDAY])),
        decided(&typed(&[NEW_YEARS_EVE, new_years_day, [1, 1, 2, 0, 1]]), &first([HOLIDAY, SUNDAY, HOLIDAY, TUESDAY])),
        begun(&typed(&[NEW_YEARS_EVE]), &last(29, [TUESDAY, WEDNESDAY, HOLIDAY])),
        decided(&typed(&[[1, 12, 27, 0, 1]]), &last(26, [SATURDAY, SUNDAY, HOLIDAY])),
        decided(&typed(&[[1, 12, 30, 0, 1]]), &last(29, [TUESDAY, HOLIDAY, THURSDAY])),
    ]
}

// Beside other holidays.

/// "Unless another row names it": as a fixed date that does not move, the final Sunday of March, the day after its final Saturday; filed
/// before and behind. Rows that name another Sunday, another Monday, the day before or the same once more do not.
fn named_by_another() -> Vec<Vec<u8>> {
    let (named, left) = ([SATURDAY, HOLIDAY, HOLIDAY, TUESDAY], [SATURDAY, SUNDAY, HOLIDAY, TUESDAY]);
    let (final_sunday, after_final_saturday) = ([2, 3, 5, 0, 0], [3, 3, 5, 6, 0]);
    let about = |places: [usize; 4]| [march(2024, places), march(2030, places)].concat();
    let mut many = vec![[1, 7, 4, 0, 1]; 15];
    many.push(MOVES);
    vec![
        begun(&typed(&[MOVES, FIXED]), &about(named)),
        decided(&typed(&[FIXED, MOVES]), &about(named)),
        begun(&typed(&[MOVES, final_sunday]), &about(named)),
        decided(&typed(&[final_sunday, MOVES]), &about(named)),
        begun(&typed(&[MOVES, after_final_saturday]), &about(named)),
        decided(&typed(&[after_final_saturday, MOVES]), &about(named)),
        decided(&typed(&[MOVES, [2, 3, 4, 0, 0], [2, 3, 5, 1, 0]]), &about(left)),
        decided(&typed(&[MOVES, MOVES]), &about(left)),
        decided(&typed(&[[1, 3, 30, 0, 1], MOVES]), &about([HOLIDAY, SUNDAY, HOLIDAY, TUESDAY])),
        decided(&typed(&[[1, 3, 30, 0, 0], FIXED]), &about([HOLIDAY, HOLIDAY, MONDAY, TUESDAY])),
        // all sixteen rows are looked at
        decided(&typed(&many), &about(left)),
    ]
}

/// A date that moves onto another holiday is not moved on, and both rows name that day: 1 April as a fixed date that moves or not, and as
/// the first Monday; New Year's Day.
fn onto_another() -> Vec<Vec<u8>> {
    let left = [SATURDAY, SUNDAY, HOLIDAY, TUESDAY];
    let others = [[1, 4, 1, 0, 0], [1, 4, 1, 0, 1], [2, 4, 1, 1, 0]];
    let mut out: Vec<Vec<u8>> = others.map(|other| begun(&typed(&[MOVES, other]), &march(2024, left))).to_vec();
    out.extend(others.map(|other| decided(&typed(&[other, MOVES]), &march(2024, left))));
    // without a Sunday each has its own day; where 1 April is the Sunday, 31 March is a Saturday
    let apart = [march(2025, [SUNDAY, HOLIDAY, HOLIDAY, WEDNESDAY]), march(2029, [FRIDAY, HOLIDAY, SUNDAY, HOLIDAY])];
    out.push(decided(&typed(&[MOVES, [1, 4, 1, 0, 1]]), &apart.concat()));
    for new_years_day in [[1, 1, 1, 0, 0], [1, 1, 1, 0, 1]] {
        out.push(decided(&typed(&[NEW_YEARS_EVE, new_years_day]), &[december(2023, left), december(2028, left)].concat()));
    }
    // 1 January 2023 is a Sunday
    let january_2023 = |places| [december(2022, places), on(&[(2023, 1, 3, TUESDAY)])].concat();
    out.push(decided(&typed(&[NEW_YEARS_EVE, [1, 1, 1, 0, 0]]), &january_2023([FRIDAY, HOLIDAY, HOLIDAY, MONDAY])));
    out.push(decided(&typed(&[NEW_YEARS_EVE, [1, 1, 1, 0, 1]]), &january_2023([FRIDAY, HOLIDAY, SUNDAY, HOLIDAY])));
    out
}

/// Dates that move on days one behind the other: a Sunday and the Monday after, a Saturday and the Sunday; three of them.
fn days_in_a_row() -> Vec<Vec<u8>> {
    let christmas = |year, from, places: [usize; 5]| from_day(year, 12, from, &places);
    let two = [[1, 12, 24, 0, 1], [1, 12, 25, 0, 1]];
    let three = [[1, 12, 26, 0, 1], [1, 12, 25, 0, 1], [1, 12, 24, 0, 1]];
    let asked_two = [
        christmas(2028, 23, [SATURDAY, SUNDAY, HOLIDAY, TUESDAY, WEDNESDAY]),
        christmas(2022, 23, [FRIDAY, HOLIDAY, SUNDAY, HOLIDAY, TUESDAY]),
        christmas(2025, 23, [TUESDAY, HOLIDAY, HOLIDAY, FRIDAY, SATURDAY]),
    ];
    let asked_three = [
        christmas(2028, 24, [SUNDAY, HOLIDAY, HOLIDAY, WEDNESDAY, THURSDAY]),
        christmas(2022, 24, [HOLIDAY, SUNDAY, HOLIDAY, TUESDAY, WEDNESDAY]),
        christmas(2021, 24, [HOLIDAY, HOLIDAY, SUNDAY, HOLIDAY, TUESDAY]),
    ];
    vec![begun(&typed(&two), &asked_two.concat()), decided(&typed(&three), &asked_three.concat())]
}

/// The day after a floating date does not follow one that has moved; and floating dates, and the days after them, stay on their Sunday.
fn day_after() -> Vec<Vec<u8>> {
    let after_final_sunday = [3, 3, 5, 0, 0];
    let thanksgiving = [[1, 11, 24, 0, 1], [2, 11, 4, 4, 0], [3, 11, 4, 4, 0]];
    let november = [(24, SUNDAY), (25, HOLIDAY), (26, TUESDAY), (27, WEDNESDAY), (28, HOLIDAY), (29, HOLIDAY), (30, SATURDAY)];
    vec![
        decided(&typed(&[MOVES, after_final_sunday]), &march(2024, [SATURDAY, SUNDAY, HOLIDAY, TUESDAY])),
        decided(&typed(&[MOVES, after_final_sunday]), &march(2025, [SUNDAY, HOLIDAY, TUESDAY, WEDNESDAY])),
        // the first Monday of April 2024 is the 1st, of 2025 the 7th
        decided(&typed(&[MOVES, [3, 4, 1, 1, 0]]), &march(2024, [SATURDAY, SUNDAY, HOLIDAY, HOLIDAY])),
        decided(&typed(&[MOVES, [3, 4, 1, 1, 0]]), &march(2025, [SUNDAY, HOLIDAY, TUESDAY, WEDNESDAY])),
        begun(&typed(&thanksgiving), &on(&november.map(|(day, place)| (2024, 11, day, place)))),
        decided(&typed(&[[2, 3, 5, 0, 0]]), &march(2024, [SATURDAY, HOLIDAY, MONDAY, TUESDAY])),
        decided(&typed(&[[3, 3, 5, 6, 0]]), &march(2024, [SATURDAY, HOLIDAY, MONDAY, TUESDAY])),
    ]
}

// Days back.

/// An entry on holidays alone, from 10:00 on, is in force on the seven days after the day to which the holiday has moved, and not on the
/// eighth: from 1 April, 1 January, 1 March, 3 January 2000 and 21 December 2099 on; where it does not move, from the Sunday on.
fn holiday_alone() -> Vec<Vec<u8>> {
    let site = |rows: &[[u16; 5]]| planned(&[meter(HOL, 600, 900)], rows);
    let begins = |year, month, day| [each(year, month, day..=day, &[0, 599], 0), each(year, month, day..=day, &[600, 1439], 1)].concat();
    let week = |year, month, day: u16| {
        let after = [each(year, month, day + 1..=day + 7, &BOTH_ENDS, 1), each(year, month, day + 8..=day + 9, &BOTH_ENDS, 0)];
        [begins(year, month, day), after.concat()].concat()
    };
    let none = |year, month, days| each(year, month, days, &BOTH_ENDS, 0);
    let stays = [begins(2024, 3, 31), each(2024, 4, 1..=7, &BOTH_ENDS, 1), none(2024, 4, 8..=9)];
    let both = [begins(2024, 3, 31), each(2024, 4, 1..=8, &BOTH_ENDS, 1), none(2024, 4, 9..=10)];
    // 7 April is a Sunday too, and its holiday has moved to the 8th, a week later
    let two = [none(2024, 3, 31..=31), begins(2024, 4, 1), each(2024, 4, 2..=15, &BOTH_ENDS, 1), none(2024, 4, 16..=16)];
    vec![
        ticked(&site(&[MOVES]), &[none(2024, 3, 31..=31), week(2024, 4, 1)].concat()),
        decided(&site(&[FIXED]), &stays.concat()),
        decided(&site(&[MOVES, [2, 3, 5, 0, 0]]), &both.concat()),
        decided(&site(&[MOVES, [1, 4, 7, 0, 1]]), &two.concat()),
        decided(&site(&[NEW_YEARS_EVE]), &[none(2023, 12, 25..=31), week(2024, 1, 1)].concat()),
        decided(&site(&[FEBRUARY_29]), &[none(2032, 2, 28..=29), week(2032, 3, 1)].concat()),
        decided(&site(&[FEBRUARY_29]), &[none(2027, 2, 27..=28), none(2027, 3, 1..=9)].concat()),
        decided(&site(&[[1, 1, 2, 0, 1]]), &[none(2000, 1, 1..=2), week(2000, 1, 3)].concat()),
        decided(&site(&[NEW_YEARS_EVE]), &none(2000, 1, 1..=9)),
        decided(&site(&[[1, 12, 20, 0, 1]]), &[week(2099, 12, 21), none(2099, 12, 31..=31)].concat()),
    ]
}

/// An entry on Sundays alone, from 06:00 on, starts on the Sunday that the holiday has left, and lasts over the moved holiday to the next
/// Sunday; where the holiday stays it does not. One on Mondays alone does not start on the Monday to which the holiday has moved.
fn sunday_or_monday_alone() -> Vec<Vec<u8>> {
    let site = |days, row| planned(&[meter(days, 360, 900)], &[row]);
    let april = |days, place| each(2024, 4, days, &BOTH_ENDS, place);
    let last_of_march = |place| each(2024, 3, 31..=31, &[0, 359, 360, 1439], place);
    let starts = |day| [each(2024, 4, day..=day, &[0, 359], 0), each(2024, 4, day..=day, &[360, 1439], 1)].concat();
    vec![
        ticked(&site(SUN, MOVES), &[last_of_march(1), april(1..=8, 1)].concat()),
        // 24 March's is in force on the 31st, to its end
        decided(&site(SUN, FIXED), &[last_of_march(1), april(1..=6, 0), starts(7), april(8..=8, 1)].concat()),
        decided(&site(SUN, [2, 3, 5, 0, 0]), &[last_of_march(1), april(1..=6, 0), starts(7)].concat()),
        // 25 March's on 1 April
        ticked(&site(MON, MOVES), &[last_of_march(1), april(1..=1, 1), april(2..=7, 0), starts(8)].concat()),
        decided(&site(MON, FIXED), &[last_of_march(1), april(1..=8, 1)].concat()),
    ]
}

/// Entries for Sunday, from 06:00 on, and Holiday, from 10:00 on: on the Sunday that the holiday has left the first starts, on the next day
/// the second, and lasts to the next Sunday.
fn sunday_and_holiday() -> Vec<Vec<u8>> {
    let site = |rows: &[[u16; 5]]| planned(&[meter(SUN, 360, 900), meter(HOL, 600, 700)], rows);
    let march = |minutes: &[u32], place| each(2024, 3, 31..=31, minutes, place);
    let april = |day: u16, minutes: &[u32], place| each(2024, 4, day..=day, minutes, place);
    let week = [each(2024, 4, 2..=6, &BOTH_ENDS, 2), april(7, &[0, 359], 2), april(7, &[360, 1439], 1)].concat();
    let moved = [march(&[0, 359, 360, 1439], 1), april(1, &[0, 599], 1), april(1, &[600, 1439], 2), week.clone()];
    let stays = [march(&[0, 360, 599], 1), march(&[600, 1439], 2), april(1, &[0, 599, 600, 1439], 2), week];
    vec![
        ticked(&site(&[MOVES]), &moved.concat()),
        decided(&site(&[FIXED]), &stays.concat()),
        decided(&site(&[MOVES, FIXED]), &stays.concat()),
        decided(&site(&[MOVES, [3, 3, 5, 6, 0]]), &stays.concat()),
    ]
}

/// Entries for each weekday, and one more for holidays or none, from 06:00 on. Before its start it is yesterday's: of the Sunday that the
/// holiday has left it is Sunday's, of the moved holiday it is Holiday's, or where there is none Sunday's again, two days back.
fn most_recent() -> Vec<Vec<u8>> {
    let site = |row, with_holiday: bool| {
        let mut site = Site { holidays: vec![row], ..each_weekday() };
        if with_holiday {
            site.entries.push(meter(HOL, 360, 600));
        }
        site
    };
    let before_and_after = |days: [(u16, u16, u16, usize, usize); 3]| {
        let asked = |(year, month, day, before, after)| [(at(year, month, day, 359), before), (at(year, month, day, 360), after)];
        days.into_iter().flat_map(asked).collect::<Vec<Asked>>()
    };
    let march = |row, with_holiday, places: [(usize, usize); 3]| {
        let [(a, b), (c, d), (e, f)] = places;
        ticked(&site(row, with_holiday), &before_and_after([(2024, 3, 31, a, b), (2024, 4, 1, c, d), (2024, 4, 2, e, f)]))
    };
    let others = [
        (NEW_YEARS_EVE, [(2023, 12, 31, 7, 1), (2024, 1, 1, 1, 8), (2024, 1, 2, 8, 3)]),
        (FEBRUARY_29, [(2032, 2, 29, 7, 1), (2032, 3, 1, 1, 8), (2032, 3, 2, 8, 3)]),
        (FEBRUARY_29, [(2027, 2, 28, 7, 1), (2027, 3, 1, 1, 2), (2027, 3, 2, 2, 3)]),
    ];
    let mut out = vec![
        march(MOVES, true, [(7, 1), (1, 8), (8, 3)]),
        march(MOVES, false, [(7, 1), (1, 1), (1, 3)]),
        march(FIXED, true, [(7, 8), (8, 2), (2, 3)]),
        march(FIXED, false, [(7, 7), (7, 2), (2, 3)]),
    ];
    out.extend(others.map(|(row, days)| decided(&site(row, true), &before_and_after(days))));
    out
}

// Runs.

/// Runs over midnight: into the Sunday that the holiday has left, on into the holiday, and out of it. The plan meters, and is green on
/// holidays.
fn runs() -> Vec<Vec<u8>> {
    let date = |year, month, day| Date { year, month, day };
    let [plain, holiday] = [1, 2];
    let green = |row| planned(&[meter(DAILY, 0, 900), [HOL, 0, 1, 0, 0]], &[row]);
    let dark = |row| planned(&[meter(DAILY, 0, 900), [HOL, 0, 0, 0, 0]], &[row]);
    // no entry starts on the holiday, and the Sunday's goes on; or the holiday's alone does, up to the seventh day's last tenth
    let none = planned(&[meter(DAILY, 1200, 900)], &[MOVES]);
    let alone = planned(&[meter(HOL, 1200, 900)], &[MOVES]);
    // the final Sunday of March is named too
    let named = planned(&[meter(DAILY, 0, 900), meter(HOL, 0, 600)], &[MOVES, [2, 3, 5, 0, 0]]);
    vec![
        over(&green(MOVES), date(2024, 3, 30), date(2024, 3, 31), 60, [plain, plain]),
        over(&green(MOVES), date(2024, 3, 31), date(2024, 4, 1), 100, [plain, holiday]),
        over(&green(MOVES), date(2024, 4, 1), date(2024, 4, 2), 200, [holiday, plain]),
        over(&green(FIXED), date(2024, 3, 30), date(2024, 3, 31), 100, [plain, holiday]),
        over(&green(FIXED), date(2024, 3, 31), date(2024, 4, 1), 100, [holiday, plain]),
        over(&dark(MOVES), date(2024, 3, 31), date(2024, 4, 1), 100, [plain, holiday]),
        over(&dark(MOVES), date(2024, 4, 1), date(2024, 4, 2), 200, [holiday, plain]),
        over(&none, date(2024, 3, 31), date(2024, 4, 1), 60, [1, 1]),
        over(&none, date(2024, 4, 1), date(2024, 4, 2), 60, [1, 1]),
        over(&alone, date(2024, 4, 1), date(2024, 4, 2), 60, [1, 1]),
        over(&alone, date(2024, 4, 8), date(2024, 4, 9), 60, [1, 0]),
        over(&named, date(2024, 3, 30), date(2024, 3, 31), 60, [plain, holiday]),
        over(&named, date(2024, 3, 31), date(2024, 4, 1), 60, [holiday, holiday]),
        // over the year, and 29 February; in a common year there is none
        over(&green(NEW_YEARS_EVE), date(2023, 12, 31), date(2024, 1, 1), 100, [plain, holiday]),
        over(&green(NEW_YEARS_EVE), date(2024, 1, 1), date(2024, 1, 2), 100, [holiday, plain]),
        over(&green(NEW_YEARS_EVE), date(2024, 12, 31), date(2025, 1, 1), 100, [holiday, plain]),
        over(&green(FEBRUARY_29), date(2032, 2, 28), date(2032, 2, 29), 60, [plain, plain]),
        over(&green(FEBRUARY_29), date(2032, 2, 29), date(2032, 3, 1), 100, [plain, holiday]),
        over(&green(FEBRUARY_29), date(2032, 3, 1), date(2032, 3, 2), 100, [holiday, plain]),
        over(&green(FEBRUARY_29), date(2024, 2, 29), date(2024, 3, 1), 100, [holiday, plain]),
        over(&green(FEBRUARY_29), date(2027, 2, 28), date(2027, 3, 1), 60, [plain, plain]),
        over(&green([1, 2, 28, 0, 1]), date(2027, 2, 28), date(2027, 3, 1), 100, [plain, holiday]),
        over(&green([1, 2, 28, 0, 1]), date(2016, 2, 28), date(2016, 2, 29), 100, [plain, holiday]),
    ]
}

/// A clock that jumps about in one run, between years in which 31 March, 29 February and 31 December move and years in which they stay.
fn jumps() -> Vec<u8> {
    let rows = [MOVES, FEBRUARY_29, NEW_YEARS_EVE];
    let site = planned(&[meter(DAILY, 0, 900), [HOL, 0, 1, 0, 0]], &rows);
    let asked = [
        (at(2024, 4, 1, 0), 2),
        (at(2024, 3, 31, 1439), 1),
        (at(2025, 3, 31, 720), 2),
        (at(2025, 4, 1, 720), 1),
        (at(2030, 4, 1, 1), 2),
        (at(2000, 1, 1, 0), 1),
        (at(2001, 1, 1, 0), 2),
        (at(2000, 12, 31, 1439), 1),
        (at(2099, 12, 31, 1439), 2),
        (at(2032, 2, 29, 5), 1),
        (at(2032, 3, 1, 5), 2),
        (at(2028, 2, 29, 5), 2),
        (at(2028, 3, 1, 5), 1),
        (at(2027, 3, 1, 5), 1),
        (at(2024, 1, 1, 600), 2),
        (at(2023, 12, 31, 600), 1),
    ];
    let mut ops = vec![Op::Ticks(150, Input { clock: at(2024, 3, 31, 0), ..passing(NONE) })];
    for (clock, place) in asked {
        ops.extend([decision(&site, (clock, place)), Op::Ticks(50, Input { clock, ..passing(NONE) })]);
    }
    from_power_up(&bytes(&site), &ops)
}

/// The fifth number is set and taken back in the record, and the day is what the record says; a record that no file could give is refused.
/// A command rules on the holiday as on any day, and the day type is given all the same.
fn by_the_record() -> Vec<u8> {
    let (stays, moves) = (typed(&[FIXED]), typed(&[MOVES]));
    let (sunday, monday) = (at(2024, 3, 31, 720), at(2024, 4, 1, 720));
    let days = |site: &Site, places: [usize; 2]| [decision(site, (sunday, places[0])), decision(site, (monday, places[1]))];
    let ticks = |commands| [sunday, monday].map(|clock| Op::Ticks(2, Input { clock, commands, ..in_demand(NONE) }));
    let set = |place, value| [Op::Damage(2, place, value)];
    let asked = [Op::Decide(sunday, [NONE; 2]), Op::Decide(monday, [NONE; 2])];
    let mut ops = Vec::new();
    ops.extend(days(&stays, [HOLIDAY, MONDAY]));
    ops.extend(ticks([NONE; 2]));
    ops.extend(set(5, 1));
    ops.extend(days(&moves, [SUNDAY, HOLIDAY]));
    ops.extend(ticks([NONE; 2]));
    ops.extend(ticks([GREEN, fixed(700)]));
    ops.extend(ticks([NONE, fixed(700)]));
    // beyond 1; and in a row beyond the count
    for (place, value, back) in [(5, 2, 1), (10, 1, 0)] {
        ops.extend(set(place, value));
        ops.extend(asked.clone());
        ops.extend(ticks([NONE; 2]));
        ops.extend(set(place, back));
        ops.extend(days(&moves, [SUNDAY, HOLIDAY]));
    }
    // the final Sunday of March, which may not move
    ops.extend([Op::Damage(2, 3, 5), Op::Damage(2, 1, 2)]);
    ops.extend(asked);
    ops.extend(set(5, 0));
    ops.extend(days(&typed(&[[2, 3, 5, 0, 0]]), [HOLIDAY, MONDAY]));
    ops.push(Op::Repair);
    ops.extend(days(&stays, [HOLIDAY, MONDAY]));
    from_power_up(&bytes(&stays), &ops)
}

pub fn cases() -> Vec<Vec<u8>> {
    let next_day = [march_2024(), march_of_other_years(), every_year()];
    let ends = [across_the_year(), february_29(), february_28(), month_ends(), first_and_last_days()];
    let others = [named_by_another(), onto_another(), days_in_a_row(), day_after()];
    let days_back = [holiday_alone(), sunday_or_monday_alone(), sunday_and_holiday(), most_recent()];
    let runs = [runs(), vec![jumps(), by_the_record()]];
    [&next_day[..], &ends, &others, &days_back, &runs].concat().concat()
}
