//! What `crates/site_bounds` prints of a site file.

use crate::diagnosis;
use crate::output::{write, Outcome, ROOM};
use crate::site;
use crate::tally::Tally;
use crate::text;
use crate::timetable;

/// Into a buffer with much room, into one that just holds the bytes, and into one that is a byte shorter.
fn line(name: &str, bytes: &[u8], tally: &mut Tally) -> String {
    let outcome = |size| Outcome::of(size, |out| write(bytes, out)).words();
    tally.refused(11);
    format!("{name} {} {} {}\n", outcome(ROOM), outcome(bytes.len()), outcome(bytes.len() - 1))
}

pub fn answer(file: &[u8], tally: &mut Tally) -> String {
    let read = match site::read(file) {
        Ok(site) => {
            assert_eq!(site::bytes(&site), file);
            tally.count("sites", 1);
            format!("accepted and rewritten\n{}", line("write", file, tally))
        }
        Err(r) => {
            tally.refused(r.number);
            text::refusal(r) + &diagnosis::of(file, "site.bin")
        }
    };
    read + &line("print", timetable::print(file).as_bytes(), tally)
}
