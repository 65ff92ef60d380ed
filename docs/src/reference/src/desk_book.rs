//! A second book of the polling desk since it was fresh. It has the enrolled numbers, the one polled last, how often that one was silent
//! running, and whether it was removed since.

use crate::desk::{Answer, Call, Desk};
use std::collections::BTreeSet;

/// A cabinet that was polled, how often it was silent since the turn came to it, and whether it was removed since its last poll.
struct Last {
    cabinet: u64,
    silences: u8,
    was_removed: bool,
}

#[derive(Default)]
pub struct Book {
    enrolled: BTreeSet<u64>,
    last: Option<Last>,
}

const REFUSED: Answer = Answer { refusal: 18, polled: None };
const DONE: Answer = Answer { refusal: 0, polled: None };

/// How many steps upward it is from one number to another, 1 to 32; from 31 the next step is to 0.
fn steps(from: u64, to: u64) -> u64 {
    (to + 31 - from) % 32 + 1
}

impl Book {
    /// Whoever is the fewest steps on from the one polled last.
    fn following(&self, last: u64) -> Option<u64> {
        self.enrolled.iter().copied().min_by_key(|cabinet| steps(last, *cabinet))
    }

    fn remove(&mut self, cabinet: u64) {
        let was_there = self.enrolled.remove(&cabinet);
        if let Some(last) = self.last.as_mut().filter(|last| was_there && last.cabinet == cabinet) {
            last.was_removed = true;
        }
    }

    fn poll_next(&mut self, cabinet: Option<u64>) {
        self.last = cabinet.map(|cabinet| Last { cabinet, silences: 0, was_removed: false });
    }

    fn tick(&mut self, has_answered: bool) {
        let Some(last) = &mut self.last else {
            return self.poll_next(self.enrolled.first().copied());
        };
        last.silences += !has_answered as u8;
        if has_answered || last.was_removed || last.silences == 3 {
            let cabinet = last.cabinet;
            self.poll_next(self.following(cabinet));
        }
    }

    /// What the call should answer.
    pub fn call(&mut self, call: Call) -> Answer {
        match call {
            Call::Enrol(32..) | Call::Remove(32..) | Call::Tick(2..) => return REFUSED,
            Call::Enrol(cabinet) => drop(self.enrolled.insert(cabinet)),
            Call::Remove(cabinet) => self.remove(cabinet),
            Call::Tick(answer) => {
                self.tick(answer == 1);
                return Answer { polled: self.last.as_ref().map(|last| last.cabinet as u8), ..DONE };
            }
        }
        DONE
    }

    /// The desk as this book has it.
    pub fn desk(&self) -> Desk {
        let mask = self.enrolled.iter().fold(0, |mask, cabinet| mask | 1 << cabinet);
        match &self.last {
            None => Desk::of(mask, 0, 0),
            Some(last) if last.was_removed => Desk::of(mask, last.cabinet as u8, 3),
            Some(last) => Desk::of(mask, last.cabinet as u8, last.silences + 1),
        }
    }
}
