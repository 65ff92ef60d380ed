//! A lane in metering: its colour, age, cycle counter and passage count.

use crate::site::Timings;

/// Ages and counters stop here.
pub const LONGEST: u16 = 720;
const MOST_PASSAGES: u8 = 3;

/// Its number is what a lane shows.
#[derive(Clone, Copy, PartialEq)]
pub enum Colour {
    Dark = 0,
    Red = 1,
    Yellow = 2,
    Green = 3,
}

/// One more, up to the longest.
pub fn raised(counter: u16) -> u16 {
    LONGEST.min(counter + 1)
}

/// When a green ends.
#[derive(Clone, Copy)]
pub enum GreenEnd {
    /// At the minimum once V vehicles have passed, else at the maximum.
    Ordinary,
    /// At the minimum.
    Minimum,
    Never,
    Now,
}

#[derive(Clone, Copy)]
pub struct Lane {
    pub colour: Colour,
    age: u16,
    /// Since the last green began.
    cycle: u16,
    /// Of the last green.
    passages: u8,
}

impl Lane {
    /// As on entering metering.
    pub const RESTED: Lane = Lane { colour: Colour::Red, age: 0, cycle: LONGEST, passages: 0 };

    /// One tick; the age of a new colour is 0.
    pub fn tick(&mut self, timings: &Timings, passage: bool, green_end: GreenEnd) {
        self.age = raised(self.age);
        self.cycle = raised(self.cycle);
        match self.colour {
            Colour::Green => {
                self.passages = MOST_PASSAGES.min(self.passages + passage as u8);
                if self.green_ends(timings, green_end) {
                    self.turn(Colour::Yellow);
                }
            }
            Colour::Yellow if self.age >= timings.yellow => self.turn(Colour::Red),
            _ => {}
        }
    }

    fn green_ends(&self, timings: &Timings, green_end: GreenEnd) -> bool {
        let at_minimum = self.age >= timings.minimum_green;
        match green_end {
            GreenEnd::Ordinary => (at_minimum && self.passages >= timings.vehicles_per_green) || self.age >= timings.maximum_green,
            GreenEnd::Minimum => at_minimum,
            GreenEnd::Never => false,
            GreenEnd::Now => true,
        }
    }

    fn turn(&mut self, colour: Colour) {
        self.colour = colour;
        self.age = 0;
    }

    /// Red for the minimum at least.
    pub fn is_rested(&self, timings: &Timings) -> bool {
        self.colour == Colour::Red && self.age >= timings.minimum_red
    }

    /// Its last green began so long ago.
    pub fn is_past(&self, cycle: u16) -> bool {
        self.cycle >= cycle
    }

    pub fn release(&mut self) {
        *self = Lane { colour: Colour::Green, age: 0, cycle: 0, passages: 0 };
    }
}
