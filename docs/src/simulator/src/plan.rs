//! The plan entry in force.

use crate::calendar::{Clock, Day};
use crate::site::Site;
use crate::wanted::Order;

/// How many days back an entry is looked for.
const DAYS_BACK: usize = 7;
const LAST_MINUTE: u16 = 1439;

pub struct Entry {
    /// Bit 0 Sunday to bit 6 Saturday, bit 7 Holiday.
    pub days: u8,
    /// Minute of the day.
    pub start: u16,
    pub order: Order,
}

/// What the entry in force asks for: today's of the latest start up to now, else that of the latest day before with an entry, seven days
/// back at most and none before 1 January 2000.
pub fn in_force(site: &Site, clock: Clock) -> Option<Order> {
    let mut day = Day::of(clock.date);
    let mut minute = clock.minute();
    for _ in 0..=DAYS_BACK {
        if let Some(entry) = latest(&site.entries, day.bit(&site.holidays), minute) {
            return Some(entry.order);
        }
        if day.is_first() {
            return None;
        }
        day = day.before();
        minute = LAST_MINUTE;
    }
    None
}

/// Of the entries of a day type that start at a minute or before, that of the latest start, and of equal starts the one filed last.
fn latest(entries: &[Entry], day_bit: u8, minute: u16) -> Option<&Entry> {
    entries.iter().rev().find(|entry| entry.start <= minute && entry.days & day_bit != 0)
}
