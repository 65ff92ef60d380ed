//! The tick record of document 02 and the call that takes many of them.
//!
//! A record is a row of two-byte numbers, high byte first, in five sections, each after its count: the clock, the metered lanes, the
//! mainline lanes, the calls, the commands. The numbers are those of the row of `row`.

use crate::group::Indications;
use crate::row;
use crate::site::Site;
use crate::tick::{state_spoilt, tick, Answer, Input, State};
use crate::wanted::lanes;

// A record.

/// The count of each section, and how many numbers one of it stands for.
fn sections(n: usize, m: usize) -> [(usize, usize); 5] {
    [(5, 1), (n, 2), (m, 4), (2, 1), (2, 3)]
}

/// How many bytes the record of n metered and m mainline lanes has.
pub fn size(n: usize, m: usize) -> usize {
    36 + 4 * n + 8 * m
}

/// The byte at which the count of a section from 1 stands.
pub fn count_at(section: usize, n: usize, m: usize) -> usize {
    let before = &sections(n, m)[..section - 1];
    before.iter().map(|(count, width)| 2 + 2 * count * width).sum()
}

/// The record of the first n metered and m mainline lanes.
pub fn record(input: &Input, n: usize, m: usize) -> Vec<u8> {
    let row = row::numbers(input, n, m);
    let (mut rest, mut out) = (&row[..], Vec::new());
    for (count, width) in sections(n, m) {
        let (numbers, behind) = rest.split_at(count * width);
        out.extend((count as u16).to_be_bytes());
        out.extend(numbers.iter().flat_map(|n| n.to_be_bytes()));
        rest = behind;
    }
    assert_eq!(out.len(), size(n, m));
    out
}

fn number(bytes: &[u8], at: usize) -> u16 {
    u16::from_be_bytes([bytes[at], bytes[at + 1]])
}

/// The first section from 1 whose count is wrong, in a record that is whole.
pub fn wrong_count(record: &[u8], n: usize, m: usize) -> Option<usize> {
    let wrong = |section: &usize| number(record, count_at(*section, n, m)) as usize != sections(n, m)[section - 1].0;
    (1..=5).find(wrong)
}

/// The tick of the first record of those left; none where it is cut short or a count is wrong. Its numbers are any.
pub fn read(left: &[u8], n: usize, m: usize) -> Option<Input> {
    let record = left.get(..size(n, m))?;
    if wrong_count(record, n, m).is_some() {
        return None;
    }
    let mut row = Vec::new();
    for (i, (count, width)) in sections(n, m).into_iter().enumerate() {
        let begin = count_at(i + 1, n, m) + 2;
        row.extend((0..count * width).map(|k| number(record, begin + 2 * k)));
    }
    Some(row::input(&row, n, m))
}

// Many ticks.

/// The state so far, how many ticks were accepted, and the refusal, 0 at the end of the records.
#[derive(Clone, Copy, Debug)]
pub struct Ran {
    pub state: State,
    pub accepted: usize,
    pub refusal: u8,
}

/// An accepted tick's bytes: one for each lane, 0 dark, 1 red, 2 yellow, 3 green; then the sign's, 1 on and 0 off.
fn shown(x: &Indications, n: usize) -> Vec<u8> {
    let colours = x.colours[..n].iter().map(|colour| *colour as u8);
    colours.chain([x.sign as u8]).collect()
}

/// The first record of those left, into the rest of the output; checks 15, 11, 8, 9, 10.
fn one(site: &Site, state: &State, left: &[u8], rest: &mut [u8]) -> Result<(Input, Answer), u8> {
    let (n, m) = lanes(site);
    let input = read(left, n, m).ok_or(15)?;
    if rest.len() < n + 1 {
        return Err(11);
    }
    let answer = tick(Some(site), state, &input);
    match answer.refusal {
        0 => {
            rest[..n + 1].copy_from_slice(&shown(&answer.indications, n));
            Ok((input, answer))
        }
        refusal => {
            assert!(matches!(refusal, 8..=10), "a state on the way is spoilt");
            Err(refusal)
        }
    }
}

/// Ticks of records one behind the other, up to the first refusal; checks 14 and 13 once, before any record.
pub fn run(site: Option<&Site>, state: &State, records: &[u8], out: &mut [u8]) -> Ran {
    run_seen(site, state, records, out, &mut |_, _| {})
}

/// The same; each accepted tick is seen from outside.
pub fn run_seen(site: Option<&Site>, state: &State, records: &[u8], out: &mut [u8], see: &mut dyn FnMut(&Input, &Answer)) -> Ran {
    let refused = |refusal| Ran { state: *state, accepted: 0, refusal };
    let Some(site) = site else {
        return refused(14);
    };
    if state_spoilt(site, state) {
        return refused(13);
    }
    let (n, m) = lanes(site);
    let (mut ran, mut left, mut place) = (refused(0), records, 0);
    while !left.is_empty() {
        match one(site, &ran.state, left, &mut out[place..]) {
            Ok((input, answer)) => {
                see(&input, &answer);
                ran.state = answer.state;
                ran.accepted += 1;
                left = &left[size(n, m)..];
                place += n + 1;
            }
            Err(refusal) => return Ran { refusal, ..ran },
        }
    }
    ran
}
