//! What both the replay program and the test programs print.

use crate::group::Indications;
use crate::site::Refused;
use crate::timetable::DAYS;
use crate::wanted::{Decision, Wish};

const LETTERS: [char; 4] = ['D', 'R', 'Y', 'G'];

/// The trade words of the refusals that a program explains, from 1 on.
const TRADE_WORDS: [&str; 10] = [
    "short file",
    "wrong count",
    "bad timing",
    "bad entry",
    "bad holiday",
    "bad level",
    "long file",
    "bad clock",
    "bad sample",
    "bad command",
];

/// The line that explains a refusal: its trade word, what is wrong, and where.
pub fn explanation(refusal: u8, what: &str, place: &str) -> String {
    format!("{}: {what} ({place})\n", TRADE_WORDS[refusal as usize - 1])
}

/// Both ends, or the one number that there is.
pub fn range(low: u32, high: u32) -> String {
    if low == high {
        return low.to_string();
    }
    format!("{low}-{high}")
}

/// The line of a refused site file.
pub fn refusal(r: Refused) -> String {
    format!("refused {} at {}\n", r.number, r.place)
}

/// The first n lanes' colours and lower greens, and the sign.
pub fn lamps(x: &Indications, n: usize) -> String {
    let colours: String = x.colours[..n].iter().map(|c| LETTERS[*c as usize]).collect();
    let lower: String = x.lower[..n].iter().map(|lit| if *lit { '1' } else { '0' }).collect();
    format!("{colours} {lower} {}", x.sign as u8)
}

/// The wish and its rate, 0 for none.
fn wish(wish: Wish) -> (&'static str, u16) {
    match wish {
        Wish::Dark => ("dark", 0),
        Wish::Green => ("green", 0),
        Wish::Metering(rate) => ("meter", rate),
        Wish::Clear => ("clear", 0),
    }
}

/// Day, entry, source, level, wish and rate; `-` for no day.
pub fn decision(d: &Decision) -> String {
    let (wish, rate) = wish(d.wish);
    let day = d.day.map_or("-", |day| DAYS[day]);
    format!("{day} {} {} {} {wish} {rate}", d.entry, d.source, d.level)
}

pub fn hex(bytes: &[u8]) -> String {
    bytes.iter().map(|b| format!("{b:02x}")).collect()
}
