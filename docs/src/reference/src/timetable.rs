//! What the timetable program prints.

use crate::site;
use crate::text;
use std::fmt::Write;

pub const DAYS: [&str; 8] = ["Sun", "Mon", "Tue", "Wed", "Thu", "Fri", "Sat", "Hol"];
const MODES: [&str; 4] = ["dark", "green", "fixed", "resp"];

/// An entry's start, mode, rate and table, as the timetable says them.
pub fn start_to_table(entry: &[u16; 5]) -> String {
    let [_, start, mode, rate, table] = *entry;
    format!("{:02}:{:02} {} {rate} {table}", start / 60, start % 60, MODES[mode as usize])
}

pub fn print(file: &[u8]) -> String {
    let site = match site::read(file) {
        Ok(site) => site,
        Err(r) => return text::refusal(r),
    };
    let mut out = String::from("day start mode rate table filed\n");
    for (day, name) in DAYS.iter().enumerate() {
        let mut of_day: Vec<(usize, &[u16; 5])> =
            site.entries.iter().enumerate().filter(|(_, e)| e[0] >> day & 1 == 1).collect();
        // a stable sort: equal starts stay as filed
        of_day.sort_by_key(|(_, e)| e[1]);
        for (i, e) in of_day {
            writeln!(out, "{name} {} {}", start_to_table(e), i + 1).unwrap();
        }
    }
    out
}
