//! "At every clock the entry in force, apart from its place in the list, equals that of the two lists simply laid end to end": held on
//! every date of a year, at midnight, in the last minute, at each start and in the minute before it. Between two of these no entry begins.

use crate::calendar::{day_type, days, days_back, Clock, Date, HOLIDAY};
use crate::files::site_a;
use crate::joining::Entry;
use crate::periods::Periods;
use crate::site::Site;
use crate::tally::Tally;
use crate::wanted::{decide, latest_start, Command};
use std::collections::BTreeMap;
use std::iter::once;

const LAST_MINUTE: u16 = 1439;
/// What is left of a digest is below this.
const DIGESTS: u64 = 4_294_967_291;

/// How many checks a year has, and the digest of the entries in force.
#[derive(Debug, Default, PartialEq)]
pub struct Year {
    pub checks: u64,
    pub digest: u64,
}

impl Year {
    /// A check: 1 and the entry's numbers, six zeros without one.
    fn add(&mut self, entry: Option<Entry>) {
        let [days, start, mode, rate, table] = entry.unwrap_or_default();
        for number in [entry.is_some() as u16, days, start, mode, rate, table] {
            self.digest = (self.digest * 31 + number as u64) % DIGESTS;
        }
        self.checks += 1;
    }
}

/// A list with the places of the entries that are in force, of each day type: at each minute asked for, and at the day's end.
struct Plan<'a> {
    entries: &'a [Entry],
    at_minutes: [Vec<Option<usize>>; 8],
    at_end: [Option<usize>; 8],
}

impl Plan<'_> {
    fn new<'a>(entries: &'a [Entry], minutes: &[u16]) -> Plan<'a> {
        let at = |day, minute| latest_start(entries, day, |start| start <= minute);
        Plan {
            entries,
            at_minutes: std::array::from_fn(|day| minutes.iter().map(|minute| at(day, *minute)).collect()),
            at_end: std::array::from_fn(|day| at(day, LAST_MINUTE)),
        }
    }

    /// The place of the entry in force at minute k of those asked for, and how many days ago it began. The day types are those of today, of
    /// yesterday and so on, as far as one looks back.
    fn place(&self, k: usize, day_types: &[usize]) -> Option<(usize, usize)> {
        let today = self.at_minutes[day_types[0]][k].map(|place| (place, 0));
        let earlier = || (1..).zip(&day_types[1..]).find_map(|(ago, day)| Some((self.at_end[*day]?, ago)));
        today.or_else(earlier)
    }

    fn entry(&self, k: usize, day_types: &[usize]) -> Option<Entry> {
        self.place(k, day_types).map(|(place, _)| self.entries[place - 1])
    }
}

/// The minutes asked for on each date.
fn minutes(end_to_end: &[Entry]) -> Vec<u16> {
    let about = |entry: &Entry| [entry[1], entry[1].checked_sub(1).unwrap_or(LAST_MINUTE)];
    [0, LAST_MINUTE].into_iter().chain(end_to_end.iter().flat_map(about)).collect()
}

/// The dates of a year that there is; of 1999 there is none.
fn dates(year: u16) -> impl Iterator<Item = Date> {
    days().iter().map(|(date, _)| *date).filter(move |date| date.year == year && 2000 <= year)
}

/// On the first days of months and of the year the same as the controller's rules say at once.
fn hold_place(site: &Site, date: Date, minute: u16, found: Option<(usize, usize)>) {
    if date.day == 1 || (date.month == 1 && date.day < 10) {
        let decision = decide(site, Clock { date, tenth: minute as u32 * 600 }, [Command::default(); 2], &Periods::default());
        assert_eq!(found.unwrap_or_default(), (decision.entry, decision.days_ago), "{date:?}, minute {minute}");
    }
}

/// What the checks found.
#[derive(Default)]
struct Found {
    in_force: u64,
    none: u64,
    earlier: u64,
    on_holiday: u64,
    differing: u64,
}

impl Found {
    /// A check on a day of that type: the place in force with its days ago, and what is in force under each list alone.
    fn note(&mut self, day: usize, place: Option<(usize, usize)>, alone: [Option<Entry>; 2]) {
        self.in_force += place.is_some() as u64;
        self.none += place.is_none() as u64;
        self.earlier += place.is_some_and(|(_, ago)| ago > 0) as u64;
        self.on_holiday += (day == HOLIDAY) as u64;
        self.differing += (alone[0] != alone[1]) as u64;
    }

    fn count(&self, tally: &mut Tally) {
        tally.count("checks of an entry in force", self.in_force);
        tally.count("checks with no entry in force", self.none);
        tally.count("checks whose entry began on an earlier day", self.earlier);
        tally.count("checks on a holiday", self.on_holiday);
        tally.count("checks at which the two lists alone differ from each other", self.differing);
    }
}

/// The year of both lists laid end to end; the joined one is held to it.
pub fn year(lists: [&[Entry]; 2], joined: &[Entry], (year, holidays): (u16, &[[u16; 5]]), tally: &mut Tally) -> Year {
    let end_to_end = lists.concat();
    let minutes = minutes(&end_to_end);
    let plan = |entries| Plan::new(entries, &minutes);
    let (both, joined, alone) = (plan(&end_to_end), plan(joined), lists.map(plan));
    let site = Site { entries: end_to_end.clone(), holidays: holidays.to_vec(), ..site_a() };
    let mut types = BTreeMap::new();
    let mut type_of = |date| *types.entry(date).or_insert_with(|| day_type(date, holidays));
    let (mut out, mut found) = (Year::default(), Found::default());
    for (date, i) in dates(year).zip(0..) {
        let day_types: Vec<usize> = once(date).chain(days_back(date)).map(&mut type_of).collect();
        for (k, minute) in minutes.iter().enumerate() {
            let entry = both.entry(k, &day_types);
            assert_eq!(joined.entry(k, &day_types), entry, "the joined list's entry in force, {date:?}, minute {minute}");
            out.add(entry);
            found.note(day_types[0], both.place(k, &day_types), [&alone[0], &alone[1]].map(|plan| plan.entry(k, &day_types)));
        }
        let k = i % minutes.len();
        hold_place(&site, date, minutes[k], both.place(k, &day_types));
    }
    found.count(tally);
    out
}
