//! How much of each kind went through.

use crate::calendar::{days_back, has_left, has_moved_to, later, stays, Clock, Date, HOLIDAY};
use crate::wanted::Decision;
use std::collections::BTreeMap;

#[derive(Default)]
pub struct Tally(BTreeMap<String, u64>);

impl Tally {
    pub fn count(&mut self, what: &str, many: u64) {
        match self.0.get_mut(what) {
            Some(sum) => *sum += many,
            None => drop(self.0.insert(what.to_string(), many)),
        }
    }

    pub fn add(&mut self, other: &Tally) {
        for (what, many) in &other.0 {
            self.count(what, *many);
        }
    }

    /// What a call or a file was refused for; 0 is nothing. A spoilt site or state is counted where it is given.
    pub fn refused(&mut self, refusal: u8) {
        let what = match refusal {
            1..=7 => "files refused",
            8 => "clocks refused",
            9 => "samples refused",
            10 => "commands refused",
            11 => "buffers too small",
            _ => return,
        };
        self.count(what, 1);
    }

    /// A line for each kind: how many, a blank, and the kind.
    pub fn print(&self) -> String {
        self.0.iter().map(|(what, many)| format!("{many} {what}\n")).collect()
    }
}

/// How many clocks were on a day that a moving holiday decides, or looked back over one.
#[derive(Default)]
struct Moves {
    moved: u64,
    left: u64,
    left_and_named: u64,
    stays: u64,
    passed: u64,
}

fn is_moved(date: Date, holidays: &[[u16; 5]]) -> bool {
    holidays.iter().any(|row| has_moved_to(date, row))
}

impl Moves {
    /// A date with its day type, and how many days were looked back over.
    fn note(&mut self, holidays: &[[u16; 5]], date: Date, day: usize, days: usize) {
        if holidays.iter().all(|row| row[4] == 0) {
            return;
        }
        let left = holidays.iter().any(|row| has_left(date, row));
        self.moved += is_moved(date, holidays) as u64;
        self.left += (left && day != HOLIDAY) as u64;
        self.left_and_named += (left && day == HOLIDAY) as u64;
        self.stays += holidays.iter().any(|row| stays(date, row)) as u64;
        self.passed += days_back(date).take(days).any(|earlier| is_moved(earlier, holidays)) as u64;
    }

    fn count(&self, what: &str, tally: &mut Tally) {
        tally.count(&format!("{what} on a holiday that has moved"), self.moved);
        tally.count(&format!("{what} on a Sunday that a holiday has left"), self.left);
        tally.count(&format!("{what} on a Sunday that a holiday has left and another row names"), self.left_and_named);
        tally.count(&format!("{what} on a moving holiday that stays"), self.stays);
        tally.count(&format!("{what} whose way back passes a holiday that has moved"), self.passed);
    }
}

/// What entries were in force, by how many days ago they began, what days the moving holidays decide, and how often a clock went over
/// midnight.
#[derive(Default)]
pub struct InForce {
    days_ago: [u64; 8],
    none: u64,
    moves: Moves,
    before: Option<Clock>,
    midnights: u64,
}

impl InForce {
    /// A decision at a clock of a site with these holidays; where something was refused it is not counted.
    pub fn note(&mut self, holidays: &[[u16; 5]], clock: Clock, decision: &Decision) {
        let Some(day) = decision.day else {
            return;
        };
        match decision.entry {
            0 => self.none += 1,
            _ => self.days_ago[decision.days_ago] += 1,
        }
        // with no entry in force all of them were looked at
        let looked_back = if decision.entry == 0 { 7 } else { decision.days_ago };
        self.moves.note(holidays, clock.date, day, looked_back);
        let over = clock.tenth == 0 && self.before.and_then(|before| later(before, 1)) == Some(clock);
        self.midnights += over as u64;
        self.before = Some(clock);
    }

    /// Counts them as decisions, as ticks or as replayed ticks.
    pub fn count(&self, what: &str, tally: &mut Tally) {
        for (days, many) in self.days_ago.iter().enumerate().skip(1) {
            let plural = if days == 1 { "" } else { "s" };
            tally.count(&format!("{what} whose entry began {days} day{plural} ago"), *many);
        }
        tally.count(&format!("{what} whose entry began on an earlier day"), self.days_ago[1..].iter().sum());
        tally.count(&format!("{what} with no entry in force"), self.none);
        self.moves.count(what, tally);
    }

    /// The same of the ticks of a run: how many are the first of a day, right after the last of the day before.
    pub fn count_midnights(&self, what: &str, tally: &mut Tally) {
        tally.count(&format!("{what} that go over midnight"), self.midnights);
    }
}
