//! 'The site file' and 'Refusals' of document 01, with the timings and the holidays' fifth number of document 02.

/// A site as rows, the way the paper speaks of it.
#[derive(Clone, Debug, Default, PartialEq)]
pub struct Site {
    pub timings: Vec<u16>,
    pub entries: Vec<[u16; 5]>,
    pub holidays: Vec<[u16; 5]>,
    pub levels: Vec<[u16; 5]>,
}

#[derive(Clone, Copy, Debug, PartialEq)]
pub struct Refused {
    pub number: u8,
    pub place: usize,
}

pub const UNUSED: u16 = 65535;

/// The timings' ranges in the paper's order, at their widest.
pub const TIMINGS: [(u16, u16); 17] = [
    (1, 4),
    (0, 1),
    (1, 3),
    (10, 100),
    (10, 100),
    (10, 60),
    (10, 100),
    (10, 600),
    (10, 600),
    (10, 60),
    (10, 600),
    (10, 600),
    (1, 60),
    (1, 600),
    (1, 6),
    (0, 4),
    (0, 255),
];

/// The range of timing i given those to its left: the maximum green is at least the minimum green, the priority lane one of the lanes.
pub fn timing_range(row: &[u16], i: usize) -> (u16, u16) {
    let (low, high) = TIMINGS[i];
    match i {
        4 => (row[3], high),
        15 => (low, row[0]),
        _ => (low, high),
    }
}

pub fn timing_ok(row: &[u16], i: usize) -> bool {
    let (low, high) = timing_range(row, i);
    (low..=high).contains(&row[i])
}

pub fn rate_ok(mode: u16, rate: u16) -> bool {
    match mode {
        2 | 3 => (150..=1800).contains(&rate),
        _ => rate == 0,
    }
}

pub fn table_ok(mode: u16, table: u16) -> bool {
    match mode {
        3 => (1..=4).contains(&table),
        _ => table == 0,
    }
}

pub fn entry_ok(row: &[u16], i: usize) -> bool {
    match i {
        0 => (1..=255).contains(&row[0]),
        1 => row[1] <= 1439,
        2 => row[2] <= 3,
        3 => rate_ok(row[2], row[3]),
        _ => table_ok(row[2], row[4]),
    }
}

/// The days of a month in a leap year.
pub fn days_in(month: u16) -> u16 {
    match month {
        2 => 29,
        4 | 6 | 9 | 11 => 30,
        _ => 31,
    }
}

pub fn holiday_ok(row: &[u16], i: usize) -> bool {
    match (i, row[0]) {
        (0, kind) => (1..=3).contains(&kind),
        (1, _) => (1..=12).contains(&row[1]),
        (2, 1) => (1..=days_in(row[1])).contains(&row[2]),
        (2, _) => (1..=5).contains(&row[2]),
        (3, 1) => row[3] == 0,
        (3, _) => row[3] <= 6,
        (_, 1) => row[4] <= 1,
        _ => row[4] == 0,
    }
}

pub fn level_ok(row: &[u16], i: usize) -> bool {
    match i {
        0 => (1..=4).contains(&row[0]),
        1 => row[1] == UNUSED || (1..=3000).contains(&row[1]),
        2 => row[2] == UNUSED || (1..=1000).contains(&row[2]),
        3 => row[3] == UNUSED || (1..=250).contains(&row[3]),
        _ => (150..=1800).contains(&row[4]),
    }
}

/// Section 0 timings, 1 plan entries, 2 holidays, 3 levels.
pub fn count_ok(section: usize, count: u16) -> bool {
    match section {
        0 => count as usize == TIMINGS.len(),
        1 | 2 => count <= 16,
        _ => count <= 24,
    }
}

/// Whether number i of a section's row is allowed, given what stands to its left; the timings are one row.
pub fn number_ok(section: usize, row: &[u16], i: usize) -> bool {
    match section {
        0 => timing_ok(row, i),
        1 => entry_ok(row, i),
        2 => holiday_ok(row, i),
        _ => level_ok(row, i),
    }
}

struct Reader<'a> {
    file: &'a [u8],
    at: usize,
}

impl Reader<'_> {
    fn short(&self) -> Refused {
        Refused { number: 1, place: self.file.len() }
    }

    fn number(&mut self) -> Result<u16, Refused> {
        if self.at + 2 > self.file.len() {
            return Err(self.short());
        }
        let n = u16::from_be_bytes([self.file[self.at], self.file[self.at + 1]]);
        self.at += 2;
        Ok(n)
    }

    /// One section: its rows, each of `width` numbers.
    fn section(&mut self, section: usize, width: usize) -> Result<Vec<Vec<u16>>, Refused> {
        let count_at = self.at;
        let count = self.number()?;
        if !count_ok(section, count) {
            return Err(Refused { number: 2, place: count_at });
        }
        // the timings' count counts numbers, and they are one row
        let rows = if section == 0 { 1 } else { count as usize };
        if self.at + rows * width * 2 > self.file.len() {
            return Err(self.short());
        }
        let mut out = Vec::new();
        for _ in 0..rows {
            let begin = self.at;
            let row: Vec<u16> = (0..width).map(|_| self.number().unwrap()).collect();
            for i in 0..width {
                if !number_ok(section, &row, i) {
                    return Err(Refused { number: 3 + section as u8, place: begin + i * 2 });
                }
            }
            out.push(row);
        }
        Ok(out)
    }
}

pub fn read(file: &[u8]) -> Result<Site, Refused> {
    let mut r = Reader { file, at: 0 };
    let timings = r.section(0, TIMINGS.len())?.remove(0);
    let entries = r.section(1, 5)?;
    let holidays = r.section(2, 5)?;
    let levels = r.section(3, 5)?;
    if r.at < file.len() {
        return Err(Refused { number: 7, place: r.at });
    }
    Ok(Site {
        timings,
        entries: entries.iter().map(|v| v[..].try_into().unwrap()).collect(),
        holidays: holidays.iter().map(|v| v[..].try_into().unwrap()).collect(),
        levels: levels.iter().map(|v| v[..].try_into().unwrap()).collect(),
    })
}

/// The record's file, with no check.
pub fn bytes(site: &Site) -> Vec<u8> {
    let mut out = Vec::new();
    let mut put = |n: u16| out.extend(n.to_be_bytes());
    put(site.timings.len() as u16);
    site.timings.iter().for_each(|n| put(*n));
    put(site.entries.len() as u16);
    site.entries.iter().flatten().for_each(|n| put(*n));
    put(site.holidays.len() as u16);
    site.holidays.iter().flatten().for_each(|n| put(*n));
    put(site.levels.len() as u16);
    site.levels.iter().flatten().for_each(|n| put(*n));
    out
}
