//! A site record: the numbers of the four sections, any numbers, and how many rows the lists say they have.

use crate::site::{self, Site};

/// How many numbers each section has room for, and how many one of its count stands for.
const ROOMS: [(usize, usize); 4] = [(17, 1), (16 * 5, 5), (16 * 5, 5), (24 * 5, 5)];

#[derive(Clone, Debug, PartialEq)]
struct Section {
    count: u16,
    numbers: Vec<u16>,
}

#[derive(Clone, Debug, PartialEq)]
pub struct Record([Section; 4]);

impl Record {
    /// "In a record, rows beyond a count are 0."
    pub fn of(site: &Site) -> Record {
        let rows = [site.timings.clone(), site.entries.concat(), site.holidays.concat(), site.levels.concat()];
        let section = |i: usize| {
            let (room, width) = ROOMS[i];
            let mut numbers = rows[i].clone();
            numbers.resize(room, 0);
            Section { count: (rows[i].len() / width) as u16, numbers }
        };
        Record(std::array::from_fn(section))
    }

    /// Sets a section's number at a place from 1, or at 0 its count. The timings' count is always 17, and is not kept.
    pub fn set(&mut self, section: u16, place: u16, value: u16) {
        let Some(kept) = self.0.get_mut(section as usize) else {
            return;
        };
        match place {
            0 if section == 0 => {}
            0 => kept.count = value,
            _ => {
                if let Some(number) = kept.numbers.get_mut(place as usize - 1) {
                    *number = value;
                }
            }
        }
    }

    /// Whether a place is in a row beyond the section's count; never of a section that there is not.
    pub fn beyond(&self, section: u16, place: u16) -> bool {
        let kept = self.0.get(section as usize).zip(ROOMS.get(section as usize));
        kept.is_some_and(|(kept, (_, width))| place as usize > kept.count as usize * width)
    }

    /// The site that a file with these numbers gives, if its record is this one; none where no file could give the record.
    pub fn site(&self) -> Option<Site> {
        let announced = |i: usize| {
            let Section { count, numbers } = &self.0[i];
            let end = numbers.len().min(*count as usize * ROOMS[i].1);
            [&[*count], &numbers[..end]].concat()
        };
        let file: Vec<u8> = (0..4).flat_map(announced).flat_map(u16::to_be_bytes).collect();
        let site = site::read(&file).ok()?;
        (Record::of(&site) == *self).then_some(site)
    }
}
