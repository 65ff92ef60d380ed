//! One lane of 'Lanes in metering' of document 01; with a bypass, document 02, its green ends by another rule.

use crate::timings::Timings;

/// Ages and counters stop here.
pub const LONGEST: u16 = 720;
/// A passage count stops here.
pub const MOST_PASSAGES: u16 = 3;

#[derive(Clone, Copy, Debug, PartialEq)]
pub enum Colour {
    Red,
    Yellow,
    Green,
}

impl Colour {
    pub fn number(self) -> u16 {
        match self {
            Colour::Red => 1,
            Colour::Yellow => 2,
            Colour::Green => 3,
        }
    }

    pub fn of(number: u16) -> Option<Colour> {
        [Colour::Red, Colour::Yellow, Colour::Green].into_iter().find(|c| c.number() == number)
    }
}

/// By which rule a green ends at a tick.
#[derive(Clone, Copy, Debug, PartialEq)]
pub enum GreenEnds {
    /// At the minimum green with its vehicles through, or at the maximum green.
    AsEver,
    AtMinimum,
    /// Not at this tick, whatever its age.
    Held,
    /// At this tick, whatever its age.
    Now,
}

#[derive(Clone, Copy, Debug)]
pub struct Lane {
    pub colour: Colour,
    /// The colour's age.
    pub age: u16,
    /// Ticks since its last green began.
    pub counter: u16,
    /// Passages since its last green began.
    pub passages: u16,
}

/// One tick more of a lane's age or counter, or of the group's offset counter.
pub fn risen(n: u16) -> u16 {
    if n < LONGEST {
        n + 1
    } else {
        LONGEST
    }
}

impl Lane {
    /// On entering metering: red at age 0, as if no green had begun for long.
    pub fn entering() -> Lane {
        Lane { colour: Colour::Red, age: 0, counter: LONGEST, passages: 0 }
    }

    /// One tick in metering or closing: the numbers rise, then the colour may end.
    pub fn tick(&mut self, t: &Timings, passage: bool, ends: GreenEnds) {
        self.age = risen(self.age);
        self.counter = risen(self.counter);
        if passage && self.colour == Colour::Green && self.passages < MOST_PASSAGES {
            self.passages += 1;
        }
        match self.colour {
            Colour::Green if self.green_ends(t, ends) => self.turn(Colour::Yellow),
            Colour::Yellow if self.age >= t.yellow => self.turn(Colour::Red),
            _ => {}
        }
    }

    fn green_ends(&self, t: &Timings, ends: GreenEnds) -> bool {
        let served = self.passages >= t.vehicles_per_green;
        match ends {
            GreenEnds::AsEver => (served && self.age >= t.minimum_green) || self.age >= t.maximum_green,
            GreenEnds::AtMinimum => self.age >= t.minimum_green,
            GreenEnds::Held => false,
            GreenEnds::Now => true,
        }
    }

    fn turn(&mut self, colour: Colour) {
        self.colour = colour;
        self.age = 0;
    }

    /// Red at least the minimum, in demand, and at least a cycle from its last green's start.
    pub fn ready(&self, t: &Timings, demand: bool, cycle: u16) -> bool {
        self.rested(t) && demand && self.counter >= cycle
    }

    /// Red at least the minimum.
    pub fn rested(&self, t: &Timings) -> bool {
        self.colour == Colour::Red && self.age >= t.minimum_red
    }

    /// A green begins.
    pub fn release(&mut self) {
        self.turn(Colour::Green);
        self.counter = 0;
        self.passages = 0;
    }
}
