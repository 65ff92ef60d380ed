//! Site files for the tests: each bound of each number from both sides, and files cut and drawn out.

use crate::site::{bytes, read, timing_range, Site, TIMINGS, UNUSED};

/// The paper's site A with empty lists.
pub fn site_a() -> Site {
    Site { timings: vec![2, 0, 1, 10, 20, 20, 20, 100, 50, 30, 50, 10, 1, 10, 1, 0, 0], ..Site::default() }
}

/// A site with rows of every kind.
pub fn site_with_rows() -> Site {
    Site {
        entries: vec![[2, 330, 2, 600, 0], [62, 360, 3, 720, 1], [130, 1170, 0, 0, 0], [65, 0, 1, 0, 0]],
        holidays: vec![[1, 7, 4, 0, 0], [2, 11, 4, 4, 0], [3, 11, 4, 4, 0], [2, 5, 5, 1, 0]],
        levels: vec![[1, 1260, 180, 72, 900], [1, UNUSED, 250, UNUSED, 600], [4, 1, 1, 1, 150]],
        ..site_a()
    }
}

/// The longest site file: every list full, every entry on all eight day types, every number at its longest.
pub fn longest() -> Site {
    Site {
        entries: (0..16).map(|i| [255, 1439 - 90 * (i / 2), 2, 1800, 0]).collect(),
        holidays: (0..16).map(|i| if i % 3 == 0 { [1, 12, 5, 0, 1] } else { [1 + i % 3, 12, 5, 6, 0] }).collect(),
        levels: (0..24).map(|i| [1 + i % 4, 3000, UNUSED, 250, 1800]).collect(),
        ..site_a()
    }
}

/// A site whose holidays are fixed dates: each month's last day, 29 February twice, and the first day of some; some move, and some do not.
fn site_with_moves() -> Site {
    let ends = [31, 29, 31, 30, 31, 30, 31, 31, 30, 31, 30, 31];
    let mut holidays: Vec<[u16; 5]> = (1..).zip(ends).map(|(month, day)| [1, month, day, 0, month % 2]).collect();
    holidays.extend([[1, 1, 1, 0, 1], [1, 4, 1, 0, 0], [1, 10, 1, 0, 1], [1, 2, 29, 0, 1]]);
    Site { holidays, ..site_with_rows() }
}

/// The file of a site as it was before holidays moved: of each holiday four numbers.
fn of_old_form(site: &Site) -> Vec<u8> {
    let file = bytes(site);
    let begin = 2 + 2 * site.timings.len() + 2 + 10 * site.entries.len() + 2;
    let (before, rest) = file.split_at(begin);
    let (rows, behind) = rest.split_at(10 * site.holidays.len());
    let rows: Vec<u8> = rows.chunks(10).flat_map(|row| row[..8].to_vec()).collect();
    [before, &rows, behind].concat()
}

/// The file of `site` with number `at` (counted in two-byte numbers) set to `value`.
fn with(site: &Site, at: usize, value: u16) -> Vec<u8> {
    let mut file = bytes(site);
    file[at * 2..at * 2 + 2].copy_from_slice(&value.to_be_bytes());
    file
}

/// One less than the least, the least, the greatest, one more than it, and 65535.
fn sides(low: u16, high: u16) -> Vec<u16> {
    let mut v = vec![low, high, high + 1, UNUSED];
    if 0 < low {
        v.insert(0, low - 1);
    }
    v
}

/// The holidays of a site from a number on: kind and month; the third and fourth number by kind; the day by month, of a date that moves and
/// of one that does not.
fn holiday_numbers(rows: &Site, holiday: usize) -> Vec<Vec<u8>> {
    let mut out = Vec::new();
    for (j, low, high) in [(0, 1, 3), (1, 1, 12)] {
        for value in sides(low, high) {
            out.push(with(rows, holiday + j, value));
        }
    }
    for kind in 1..4 {
        let mut site = rows.clone();
        site.holidays[3] = of_kind(kind);
        for value in [0, 1, 5, 6, 31, 32, UNUSED] {
            out.push(with(&site, holiday + 3 * 5 + 2, value));
        }
        for value in [0, 1, 6, 7, UNUSED] {
            out.push(with(&site, holiday + 3 * 5 + 3, value));
        }
    }
    for (month, moves) in (1..13).flat_map(|month| [(month, 0), (month, 1)]) {
        let mut site = rows.clone();
        site.holidays[0] = [1, month, 1, 0, moves];
        for value in [0, 1, 28, 29, 30, 31, 32] {
            out.push(with(&site, holiday + 2, value));
        }
    }
    out
}

fn of_kind(kind: u16) -> [u16; 5] {
    [kind, 5, 5, if kind == 1 { 0 } else { 1 }, 0]
}

/// A list of dates of which some move. The fifth number by kind, in the first row, in those between and in the last. Then sixteen dates
/// that move, one of them with a kind of 0 to 4: in kinds 2 and 3 the fifth number is at fault, for what stands to its left.
fn holiday_moves(rows: &Site, holiday: usize) -> Vec<Vec<u8>> {
    let mut out = vec![bytes(&site_with_moves())];
    for (i, kind) in (0..4).flat_map(|i| (1..4).map(move |kind| (i, kind))) {
        let mut site = rows.clone();
        site.holidays[i] = of_kind(kind);
        for value in [0, 1, 2, 3, 7, 255, 256, 257, UNUSED] {
            out.push(with(&site, holiday + i * 5 + 4, value));
        }
    }
    for (i, kind) in [0, 7, 15].into_iter().flat_map(|i| (0..5).map(move |kind| (i, kind))) {
        let mut site = Site { holidays: vec![[1, 3, 4, 0, 1]; 16], ..rows.clone() };
        site.holidays[i][0] = kind;
        out.push(bytes(&site));
    }
    out
}

/// Rows with several numbers out of range, one fewer from row to row down to the fifth alone: the first of them is at fault.
fn first_of_several() -> Vec<Vec<u8>> {
    let fixed = [[4, 13, 32, 1, 2], [1, 13, 32, 1, 2], [1, 4, 31, 1, 2], [1, 4, 30, 1, 2], [1, 4, 30, 0, 2]];
    let floating = [[3, 13, 6, 7, 1], [3, 12, 6, 7, 1], [3, 12, 5, 7, 1], [3, 12, 5, 6, 1], [2, 12, 5, 6, 2]];
    let alone = fixed.map(|row| Site { holidays: vec![row], ..site_a() });
    let second = floating.map(|row| Site { holidays: vec![[1, 3, 31, 0, 1], row], ..site_with_rows() });
    alone.iter().chain(&second).map(bytes).collect()
}

/// Files of the old form: with rows of each kind, one row, as many as there may be; without a level, with one, and with more.
fn old_forms() -> Vec<Vec<u8>> {
    let (rows, fixed) = (site_with_rows(), [1, 3, 31, 0, 0]);
    let mut out = vec![of_old_form(&longest())];
    for holidays in [rows.holidays.clone(), vec![fixed], vec![fixed; 16], vec![[2, 5, 5, 1, 0]], vec![[3, 11, 4, 4, 0]; 2]] {
        for levels in [vec![], vec![[1, 1, 1, 1, 150]], rows.levels.clone()] {
            out.push(of_old_form(&Site { holidays: holidays.clone(), levels, ..rows.clone() }));
        }
    }
    let refusals = out.iter().map(|file| read(file).err().map(|refused| refused.number));
    assert!(refusals.into_iter().all(|number| matches!(number, Some(1 | 5))));
    out
}

/// Each bound of each number, each conditional range, each section cut or drawn out.
pub fn bound_files() -> Vec<Vec<u8>> {
    let mut out = Vec::new();
    let a = site_a();
    let rows = site_with_rows();

    // timings; the least maximum green is the minimum green, here 10
    for i in 0..TIMINGS.len() {
        let (low, high) = timing_range(&a.timings, i);
        for value in sides(low, high) {
            out.push(with(&a, 1 + i, value));
        }
    }
    // the priority lane at each number of lanes
    for n in 1..=4 {
        let mut site = rows.clone();
        site.timings[0] = n;
        for lane in (0..=n + 1).chain([5, UNUSED]) {
            out.push(with(&site, 1 + 15, lane));
        }
        // the number of lanes comes first, and is not at fault
        site.timings[15] = 4;
        out.push(bytes(&site));
    }
    for green in [19, 20, 21, 100, 101] {
        out.push(with(&a, 1 + 3, green));
    }

    // entries: days, start and mode; the rate and the table in each mode
    let entry = 19;
    for (j, low, high) in [(0, 1, 255), (1, 0, 1439), (2, 0, 3)] {
        for value in sides(low, high) {
            out.push(with(&rows, entry + j, value));
        }
    }
    for mode in 0..4 {
        let mut site = rows.clone();
        let (rate, table) = (if mode < 2 { 0 } else { 600 }, if mode == 3 { 2 } else { 0 });
        site.entries[3] = [65, 0, mode, rate, table];
        for value in [0, 1, 149, 150, 1800, 1801, UNUSED] {
            out.push(with(&site, entry + 3 * 5 + 3, value));
        }
        for value in [0, 1, 4, 5, UNUSED] {
            out.push(with(&site, entry + 3 * 5 + 4, value));
        }
    }

    // holidays
    let holiday = entry + 4 * 5 + 1;
    out.extend(holiday_numbers(&rows, holiday));
    out.extend(holiday_moves(&rows, holiday));
    out.extend(first_of_several());
    out.extend(old_forms());

    // levels: 65535 stands for unused in flow, occupancy and speed alone
    let level = holiday + 4 * 5 + 1;
    for (j, low, high) in [(0, 1, 4), (1, 1, 3000), (2, 1, 1000), (3, 1, 250), (4, 150, 1800)] {
        for value in sides(low, high).into_iter().chain([65534]) {
            out.push(with(&rows, level + j, value));
            out.push(with(&rows, level + 2 * 5 + j, value));
        }
    }

    // each count, one short and one long, and far beyond
    for (at, counts) in [(0, [15, 16, 18]), (0, [0, 14, UNUSED]), (18, [1, 17, UNUSED]), (19, [1, 17, 256]), (20, [1, 25, UNUSED])] {
        for n in counts {
            out.push(with(&a, at, n));
        }
    }
    for at in [entry - 1, holiday - 1, level - 1] {
        for n in [0, 2, 3, 4, 5, 16, 17, 24, 25] {
            out.push(with(&rows, at, n));
        }
    }

    // every length of three files, cut and drawn out, odd ones among them; the longest there is has 602 bytes
    assert_eq!(bytes(&longest()).len(), 602);
    for site in [&a, &rows, &longest()] {
        let file = bytes(site);
        for n in 0..=file.len() {
            if n < 60 || site != &longest() || 576 < n {
                out.push(file[..n].to_vec());
            }
        }
        for more in [1, 2, 3, 40] {
            let mut long = file.clone();
            long.resize(file.len() + more, 0);
            out.push(long);
        }
    }

    // a bad number in the present part of a section that is cut short is 1
    let mut cut = with(&rows, entry, 0);
    cut.truncate(entry * 2 + 6);
    out.push(cut);
    out
}
