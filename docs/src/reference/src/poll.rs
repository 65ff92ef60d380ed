//! 'Poll record' of document 01.

use crate::periods::Periods;

/// The record of n metered and m mainline lanes, with no check.
pub fn record(n: usize, m: usize, p: &Periods) -> Vec<u8> {
    let last = &p.last;
    let mut numbers = vec![n as u16];
    numbers.extend((0..n).flat_map(|i| [last.passages[i], last.greens[i]]));
    numbers.push(m as u16);
    numbers.extend((0..m).flat_map(|j| [last.vehicles[j], last.occupied[j], last.good(j) as u16]));
    let mut out = p.serial.to_be_bytes().to_vec();
    out.extend(numbers.iter().flat_map(|n| n.to_be_bytes()));
    out
}
