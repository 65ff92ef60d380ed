//! Stored cases of refusals that ticks alone do not meet: site records that no file could give, whatever is wrong in them, at every
//! call; and buffers that just hold what is written or are too small.

use crate::call_run::{from_power_up, payload, Op};
use crate::files::{longest, site_a, site_with_rows};
use crate::output::ROOM;
use crate::site::{bytes, timing_range, Site, TIMINGS, UNUSED};
use crate::tick::State;
use crate::tick_cases::{counted, fixed, fresh, in_demand, DECIDE, POLL};

// Spoilt records.

/// Every call but power-up.
fn calls() -> [Op; 6] {
    [Op::Ticks(1, in_demand(fixed(600))), DECIDE, POLL, Op::Readings, Op::Write(600), Op::Records(0, Vec::new())]
}

/// Every call on a record with one number changed; then power-up there, and at the record of the file.
fn calls_on(section: u16, place: u16, value: u16) -> Vec<Op> {
    let powered = [Op::PowerUp, Op::Repair, Op::PowerUp];
    [&[Op::Damage(section, place, value)], &calls()[..], &powered].concat()
}

/// Each timing just below its range and just above it.
fn timing_damages(site: &Site) -> Vec<(u16, u16, u16)> {
    let sides = |i: usize| {
        let (low, high) = timing_range(&site.timings, i);
        let values = low.checked_sub(1).into_iter().chain([high + 1]);
        values.map(move |value| (0, i as u16 + 1, value))
    };
    (0..TIMINGS.len()).flat_map(sides).collect()
}

/// A list of a site: its section's number, how many numbers a row has, how many rows there are and how many there may be.
type List = (u16, u16, u16, u16);

fn lists(site: &Site) -> [List; 3] {
    let Site { entries, holidays, levels, .. } = site;
    [(1, 5, entries.len() as u16, 16), (2, 5, holidays.len() as u16, 16), (3, 5, levels.len() as u16, 24)]
}

/// A count with the last row beyond it, with a row of zeros within it, and beyond what is allowed; numbers out of range in the
/// first row and in the last; a number in each place of the first row beyond the count, and in the last place of all.
fn list_damages((section, width, rows, most): List) -> Vec<(u16, u16, u16)> {
    let counts = [rows - 1, rows + 1, most, most + 1, UNUSED, 0];
    let within = [1, (rows - 1) * width + 1, rows * width];
    let beyond = (1..=width).map(|j| rows * width + j).chain([most * width]);
    let mut out: Vec<(u16, u16, u16)> = counts.iter().map(|count| (section, 0, *count)).collect();
    out.extend(within.iter().map(|place| (section, *place, 300)));
    out.extend(beyond.map(|place| (section, place, 1)));
    out
}

fn spoilt_records() -> Vec<Vec<u8>> {
    let site = site_with_rows();
    let case = |damages: Vec<(u16, u16, u16)>| {
        let ops: Vec<Op> = damages.into_iter().flat_map(|(section, place, value)| calls_on(section, place, value)).collect();
        from_power_up(&bytes(&site), &ops)
    };
    let of_lists = lists(&site).into_iter().map(list_damages);
    [timing_damages(&site)].into_iter().chain(of_lists).map(case).collect()
}

/// The holidays' fifth number: beyond 1 in kind 1, 1 in kinds 2 and 3, in the first row, in those between and in the last, and in rows
/// beyond the count; then the weekday of the last row. 1 in the first row, of kind 1, is a record that a file could give.
fn spoilt_moves() -> Vec<u8> {
    let in_use = [(5, 2), (5, UNUSED), (5, 256), (10, 1), (15, 1), (20, 1), (20, 2), (5, 1)];
    let others = [(25, 1), (30, 1), (80, 1), (19, 7), (19, 6)];
    let ops = in_use.into_iter().chain(others).flat_map(|(place, value)| calls_on(2, place, value));
    from_power_up(&bytes(&site_with_rows()), &ops.collect::<Vec<Op>>())
}

/// A date that moves in a record, number by number: the fifth number is allowed as long as the kind is 1. In a row beyond the count it is
/// spoilt, and once the row has its kind and date and is counted it is not.
fn moving_record() -> Vec<u8> {
    let mut ops = Vec::new();
    for (place, value) in [(5, 1), (1, 2), (5, 0), (5, 1), (1, 3), (5, 0), (1, 1), (5, 1), (2, 2), (3, 29), (3, 30), (3, 1)] {
        ops.extend([Op::Damage(2, place, value), DECIDE, Op::Write(600)]);
    }
    for (place, value) in [(25, 1), (21, 1), (22, 3), (23, 31), (0, 5), (24, 1), (24, 0), (25, 2), (25, 1), (0, 4), (0, 5)] {
        ops.extend([Op::Damage(2, place, value), DECIDE, Op::Write(600)]);
    }
    ops.extend([Op::Repair, DECIDE, Op::Write(600)]);
    from_power_up(&bytes(&site_with_rows()), &ops)
}

/// The last row goes and comes back, number by number; the record is that of a file before, behind and once between.
fn row_by_row() -> Vec<u8> {
    let mut ops = vec![Op::Write(600)];
    for place in 11..=15 {
        ops.extend([Op::Damage(3, place, 0), Op::Write(600)]);
    }
    ops.extend([Op::Damage(3, 0, 2), Op::Write(600), Op::Write(142), Op::Write(141)]);
    for (place, value) in [(11, 2), (12, UNUSED), (13, 1), (14, UNUSED), (15, 150)] {
        ops.extend([Op::Damage(3, place, value), Op::Write(600)]);
    }
    ops.extend([Op::Damage(3, 0, 3), Op::Write(600), Op::Write(152), Op::Write(151)]);
    // places that there are not
    ops.extend([Op::Damage(0, 0, 15), Op::Damage(0, 18, 1), Op::Damage(1, 81, 1), Op::Damage(2, 81, 1), Op::Damage(3, 121, 1)]);
    ops.extend([Op::Damage(4, 1, 1), Op::Write(600)]);
    // the same of a spoilt record
    ops.extend([Op::Damage(0, 1, 0), Op::Damage(4, 1, 1), Op::Write(600)]);
    payload(&bytes(&site_with_rows()), &ops)
}

// Buffers.

/// A state of n metered and m mainline lanes whose last period has counts in every lane.
fn polled(n: usize, m: usize) -> State {
    let mut state = fresh(n, 7, 40);
    state.periods.serial = 0x1020_3040;
    let last = &mut state.periods.last;
    for i in 0..n {
        (last.passages[i], last.greens[i]) = (200 + i as u16, 290 + i as u16);
    }
    for j in 0..m {
        last.worked[j] = 300 - (j % 2) as u16;
        (last.vehicles[j], last.occupied[j]) = (250 + j as u16, 29_000 + j as u16);
    }
    state
}

/// Polls into buffers of no byte up to more than enough, also where an earlier check refuses.
fn poll_buffers() -> Vec<Vec<u8>> {
    let case = |(n, m): (u16, u16)| {
        let mut site = site_a();
        (site.timings[0], site.timings[14]) = (n, m);
        let record = 8 + 4 * n + 6 * m;
        let sizes = [0, 1, 4, record - 2, record - 1, record, record + 1, 64];
        let state = polled(n as usize, m as usize);
        let mut spoilt = state;
        spoilt.interval = 10;
        let polls = |state: State| [vec![Op::State(state)], sizes.map(Op::Poll).to_vec()].concat();
        let none = fresh(n as usize, 7, 40);
        let at_spoilt_site = [Op::State(state), Op::Damage(3, 120, 1), Op::Poll(0), Op::Poll(64), Op::Repair];
        payload(&bytes(&site), &[polls(state), polls(spoilt), polls(none), at_spoilt_site.to_vec()].concat())
    };
    [(1, 1), (2, 1), (3, 2), (4, 6)].into_iter().map(case).collect()
}

/// Writes into buffers of no byte up to more than enough, also of a spoilt record.
fn write_buffers() -> Vec<Vec<u8>> {
    let case = |site: Site| {
        let file = bytes(&site);
        let size = file.len() as u16;
        let room = ROOM as u16;
        let writes = [0, 1, size - 1, size, size + 1, room - 1, room, room + 1, UNUSED].map(Op::Write);
        payload(&file, &[&writes[..], &[Op::Damage(0, 1, 0)], &writes].concat())
    };
    [site_a(), site_with_rows(), longest()].into_iter().map(case).collect()
}

/// A poll of a running controller, byte by byte about the record's length.
fn poll_of_a_run() -> Vec<u8> {
    let file = bytes(&crate::tick_cases::distinct());
    let ticks = Op::Ticks(300, in_demand(fixed(900)));
    from_power_up(&file, &[ticks, Op::Poll(31), Op::Poll(32), Op::State(counted()), Op::Poll(31), Op::Poll(32)])
}

pub fn cases() -> Vec<Vec<u8>> {
    let mut out = [spoilt_records(), poll_buffers(), write_buffers()].concat();
    out.extend([spoilt_moves(), moving_record(), row_by_row(), poll_of_a_run()]);
    out
}
