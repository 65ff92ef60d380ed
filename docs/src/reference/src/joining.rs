//! Joining two plan lists, of document 02. It is said by sets: an entry stands for its day types, each with the entry's start, and is
//! dropped if one entry of the second list stands for all of these.

use crate::files::site_a;
use crate::record::Record;
use std::collections::{BTreeMap, BTreeSet};

pub type Entry = [u16; 5];

/// The most entries of a list, and how many numbers it has room for.
pub const MOST: usize = 16;
pub const ROOM: usize = 5 * MOST;

/// A plan list as the call gets it: any numbers.
#[derive(Clone, Debug, PartialEq)]
pub struct List {
    pub count: u16,
    pub numbers: Vec<u16>,
}

impl List {
    /// The list of these entries, with zeros beyond them.
    pub fn of(entries: &[Entry]) -> List {
        assert!(entries.len() <= MOST);
        let mut numbers = entries.concat();
        numbers.resize(ROOM, 0);
        List { count: entries.len() as u16, numbers }
    }

    /// Its entries; none if "no file could give" it. It is tried with a site that has this plan: the file is read back as the same record,
    /// or no file is.
    pub fn entries(&self) -> Option<Vec<Entry>> {
        let mut record = Record::of(&site_a());
        for (place, number) in (0..).zip([self.count].iter().chain(&self.numbers)) {
            record.set(1, place, *number);
        }
        record.site().map(|site| site.entries)
    }
}

/// The day types of an entry, each with its start.
pub fn begins(entry: &Entry) -> BTreeSet<(usize, u16)> {
    let [days, start, ..] = *entry;
    (0..8).filter(|day| days & (1 << day) != 0).map(|day| (day, start)).collect()
}

/// Whether the second list's entry "has the same start and all its days". An entry in range has a day, and so its start decides too.
pub fn covers(of_second: &Entry, of_first: &Entry) -> bool {
    begins(of_first).is_subset(&begins(of_second))
}

/// The entries of the first list that are dropped, each with the last entry of the second list that covers it. Both are places from 1.
pub fn dropped(first: &[Entry], second: &[Entry]) -> BTreeMap<usize, usize> {
    let covering = |entry: &Entry| second.iter().rposition(|by| covers(by, entry));
    (1..).zip(first).filter_map(|(place, entry)| Some((place, covering(entry)? + 1))).collect()
}

/// What remains: "the first list's entries in filed order before the second's", but for those that are dropped.
pub fn remaining(first: &[Entry], second: &[Entry]) -> Vec<Entry> {
    let dropped = dropped(first, second);
    let kept = (1..).zip(first).filter(|(place, _)| !dropped.contains_key(place)).map(|(_, entry)| entry);
    kept.chain(second).copied().collect()
}

/// The refusal, 0 for none, and the joined list. "Refused, both lists stay and an empty one is given."
pub fn join(first: &List, second: &List) -> (u8, List) {
    let (Some(first), Some(second)) = (first.entries(), second.entries()) else {
        return (14, List::of(&[]));
    };
    let remaining = remaining(&first, &second);
    if remaining.len() > MOST {
        return (17, List::of(&[]));
    }
    (0, List::of(&remaining))
}
