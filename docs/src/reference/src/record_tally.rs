//! Calls with tick records, counted: by what was refused, at which place, and why.

use crate::site::Site;
use crate::tally::Tally;
use crate::tick_records::{size, wrong_count, Ran};
use crate::wanted::lanes;

/// The place of a record from 1, of so many.
fn place_name(place: usize, of: usize) -> &'static str {
    match place {
        1 => "at the first place",
        _ if place == of => "at the last place",
        _ => "at a middle place",
    }
}

/// Why a record, the first of those left, is refused with 15.
fn count_15(left: &[u8], n: usize, m: usize, tally: &mut Tally) {
    match left.get(..size(n, m)) {
        None => tally.count("records cut short", 1),
        Some(record) => {
            let section = wrong_count(record, n, m).expect("a wrong count");
            tally.count(&format!("records with a wrong count in section {section}"), 1);
        }
    }
}

/// A call at a site that a file could give.
fn count_at(site: &Site, records: &[u8], room: usize, ran: &Ran, tally: &mut Tally) {
    let (n, m) = lanes(site);
    let size = size(n, m);
    let many = records.len().div_ceil(size);
    tally.count("ticks of records", many as u64);
    tally.count("ticks of records accepted", ran.accepted as u64);
    let refusal = ran.refusal;
    match refusal {
        0 => {
            tally.count("record calls that accept all their records", (many != 0) as u64);
            tally.count("record calls whose output is longer than needed", (many != 0 && room > many * (n + 1)) as u64);
            tally.count("record calls whose output is just as long as needed", (many != 0 && room == many * (n + 1)) as u64);
        }
        13 => {}
        _ => {
            // the refused one counts as a tick that was tried
            tally.count("ticks", 1);
            tally.count(&format!("records refused with {refusal} {}", place_name(ran.accepted + 1, many)), 1);
            tally.count("record calls with records behind the refused one", (ran.accepted + 1 < many) as u64);
        }
    }
    if refusal == 15 {
        count_15(&records[ran.accepted * size..], n, m, tally);
    }
    tally.count("ticks", ran.accepted as u64);
}

/// A call with these records into an output of that room, and what it gave.
pub fn count(site: Option<&Site>, records: &[u8], room: usize, ran: &Ran, tally: &mut Tally) {
    let refusal = ran.refusal;
    tally.count("record calls", 1);
    tally.count("record calls with no record, nothing refused", (records.is_empty() && refusal == 0) as u64);
    if refusal == 13 || refusal == 14 {
        tally.count(&format!("record calls refused with {refusal}"), 1);
        tally.count(&format!("record calls refused with {refusal} with no record"), records.is_empty() as u64);
    }
    tally.refused(refusal);
    if let Some(site) = site {
        count_at(site, records, room, ran, tally);
    }
}
