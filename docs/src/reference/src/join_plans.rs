//! What the program `join_plans` writes: of two site files the first with the joined plan, the entries that are dropped, or why nothing is
//! joined.

use crate::diagnosis;
use crate::files::site_a;
use crate::joining::{dropped, join, remaining, Entry, List};
use crate::site::{self, bytes, Refused, Site, TIMINGS};
use crate::text;
use crate::timetable::{start_to_table, DAYS};
use crate::timetable_files::paper;
use std::io::Result;

/// On standard output and on standard error. An explanation has the files' names as they were given, which may be no UTF-8.
#[derive(Default)]
pub struct Said {
    pub output: Vec<u8>,
    pub explanation: Vec<u8>,
}

/// Two files' names.
type Names<'a> = [&'a [u8]; 2];

// Refusals.

/// A file that reading refuses, in number and in words. The name comes right behind the line's one parenthesis.
fn refused_file(file: &[u8], name: &[u8], refused: Refused) -> Said {
    let line = diagnosis::of(file, "");
    let (what, place) = line.split_once('(').expect("a place");
    Said { explanation: [text::refusal(refused).as_bytes(), what.as_bytes(), b"(", name, place.as_bytes()].concat(), ..Said::default() }
}

/// How many would remain: of the first file those that are not dropped, of the second all.
fn too_many(first: &Site, second: &Site, names: Names) -> Said {
    let many = remaining(&first.entries, &second.entries).len();
    let of_second = second.entries.len();
    let head = format!("refused 17\ntoo many entries: {many} would remain, allowed 0-16 ({} of ", many - of_second);
    let of = format!(", {of_second} of ");
    Said { explanation: [head.as_bytes(), names[0], of.as_bytes(), names[1], b")\n"].concat(), ..Said::default() }
}

// Dropped entries.

/// An entry in words: its days, start, mode, rate and table, the file's name, and its place there from 1.
fn words(entries: &[Entry], place: usize, name: &[u8]) -> Vec<u8> {
    let entry = entries[place - 1];
    let days: Vec<&str> = (0..8).filter(|day| entry[0] & (1 << day) != 0).map(|day| DAYS[day]).collect();
    let entry = format!("{} {} (", days.join(" "), start_to_table(&entry));
    [entry.as_bytes(), name, format!(", entry {place})").as_bytes()].concat()
}

fn dropped_lines(first: &Site, second: &Site, names: Names) -> Vec<u8> {
    let line = |(place, by)| {
        let (entry, by) = (words(&first.entries, place, names[0]), words(&second.entries, by, names[1]));
        [b"dropped: ", &entry[..], b", covered by ", &by, b"\n"].concat()
    };
    dropped(&first.entries, &second.entries).into_iter().flat_map(line).collect()
}

// The program.

/// A file without its plan: the bytes before the plan's count, and those behind its entries.
fn around_plan(file: &[u8]) -> [&[u8]; 2] {
    let (before, rest) = file.split_at(2 + 2 * TIMINGS.len());
    [before, &rest[2 + 10 * rest[1] as usize..]]
}

/// The plan apart, the joined file is the first one, byte for byte.
fn hold_sections(first: &[u8], joined: &[u8]) {
    assert_eq!(around_plan(first), around_plan(joined));
}

/// What it writes of two files, whose names in messages are these.
pub fn print(files: &[Vec<u8>; 2], names: Names) -> Said {
    let [first, second] = [0, 1].map(|i| site::read(&files[i]).map_err(|refused| refused_file(&files[i], names[i], refused)));
    let (first, second) = match (first, second) {
        (Ok(first), Ok(second)) => (first, second),
        (Err(said), _) | (_, Err(said)) => return said,
    };
    let (refusal, list) = join(&List::of(&first.entries), &List::of(&second.entries));
    if refusal == 17 {
        return too_many(&first, &second, names);
    }
    assert_eq!(refusal, 0, "lists that files gave");
    let explanation = dropped_lines(&first, &second, names);
    let entries = list.entries().expect("a list that a file could give");
    let output = bytes(&Site { entries, ..first });
    hold_sections(&files[0], &output);
    Said { output, explanation }
}

// Its stored files.

/// The paper's site with two more entries. Roadworks on the days, and at the starts, of entries 1, 2 and 4; of entry 3 they have Monday
/// alone, and at entry 5's start there are none.
fn stored() -> [Site; 2] {
    let mut site = paper();
    site.entries.extend([[62, 900, 3, 810, 1], [255, 0, 1, 0, 0]]);
    let works = Site { entries: vec![[6, 330, 2, 300, 0], [62, 900, 0, 0, 0], [2, 1170, 1, 0, 0]], ..site_a() };
    let dropped: Vec<(usize, usize)> = dropped(&site.entries, &works.entries).into_iter().collect();
    assert_eq!(dropped, [(1, 1), (2, 1), (4, 2)]);
    [site, works]
}

/// Writes the files of `crates/join_plans`.
pub fn write(folder: &str) -> Result<()> {
    let [site, works] = stored();
    std::fs::write(format!("{folder}/site.bin"), bytes(&site))?;
    std::fs::write(format!("{folder}/works.bin"), bytes(&works))
}
