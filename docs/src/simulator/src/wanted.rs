//! What is wanted: the command or entry that rules, and the levels of a responsive one.

use crate::periods::{Completed, Measures};
use crate::plan;
use crate::record::Record;
use crate::site::Site;

/// What a command or a plan entry asks for; a rate is in vehicles an hour per lane.
#[derive(Clone, Copy)]
pub enum Order {
    Dark,
    Green,
    Fixed { rate: u16 },
    /// The rate is that of a time when no mainline lane is good.
    Responsive { rate: u16, table: u8 },
}

impl Order {
    /// The command of a kind, none of kind 0. An error is the place of the first number out of range: 0 kind, 1 rate, 2 table.
    pub fn of_kind(kind: u16, rate: u16, table: u16) -> Result<Option<Order>, usize> {
        match (kind, rate, table) {
            (0, 0, 0) => Ok(None),
            (1, 0, 0) => Ok(Some(Order::Dark)),
            (2, 0, 0) => Ok(Some(Order::Green)),
            (3, 150..=1800, 0) => Ok(Some(Order::Fixed { rate })),
            (4, 150..=1800, 1..=4) => Ok(Some(Order::Responsive { rate, table: table as u8 })),
            (0..=2, 0, _) | (3..=4, 150..=1800, _) => Err(2),
            (0..=4, _, _) => Err(1),
            _ => Err(0),
        }
    }
}

#[derive(Clone, Copy, PartialEq)]
pub enum Wish {
    Dark,
    Green,
    Metering { rate: u16 },
    Clear,
}

/// A level; a threshold that is unused is none.
pub struct Level {
    pub table: u8,
    pub flow: Option<u16>,
    pub occupancy: Option<u16>,
    pub speed: Option<u16>,
    pub rate: u16,
}

impl Level {
    /// Flow or occupancy at or above a threshold in use, or a known speed at or below.
    fn is_met(&self, measures: &Measures) -> bool {
        self.flow.is_some_and(|flow| measures.flow >= flow)
            || self.occupancy.is_some_and(|occupancy| measures.occupancy >= occupancy)
            || self.speed.is_some_and(|speed| measures.speed.is_some_and(|known| known <= speed as f64))
    }
}

/// Manual rules, else communications, else the plan; with no entry in force, dark.
pub fn wish(site: &Site, record: &Record, completed: &Completed) -> Wish {
    let order = record.manual.or(record.communications).or_else(|| plan::in_force(site, record.clock));
    match order {
        None | Some(Order::Dark) => Wish::Dark,
        Some(Order::Green) => Wish::Green,
        Some(Order::Fixed { rate }) => Wish::Metering { rate },
        Some(Order::Responsive { rate, table }) => responsive(&site.levels, completed, rate, table),
    }
}

/// The last completed period decides: of the levels of the table that are met, the one listed last.
fn responsive(levels: &[Level], completed: &Completed, rate: u16, table: u8) -> Wish {
    match completed {
        Completed::None => Wish::Clear,
        Completed::NoGoodLane => Wish::Metering { rate },
        Completed::Measured(measures) => match levels.iter().rev().find(|level| level.table == table && level.is_met(measures)) {
            Some(level) => Wish::Metering { rate: level.rate },
            None => Wish::Clear,
        },
    }
}
