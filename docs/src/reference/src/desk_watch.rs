//! A polling desk that is watched. Every call is held to the page; since the desk was fresh it is also held to a second book, and no
//! enrolled cabinet may wait too long for its poll.

use crate::desk::{Answer, Call, Desk, CABINETS};
use crate::desk_book::Book;
use crate::desk_claim;
use crate::tally::Tally;

// Waits.

/// Of one cabinet: how many accepted ticks went by since it was polled or the enrolment changed, and how many of them, up to the last, were
/// told 1 without a break.
#[derive(Clone, Copy, Default)]
struct Wait {
    ticks: u64,
    answered: u64,
}

impl Wait {
    fn tick(&mut self, answer: u64) {
        self.ticks += 1;
        self.answered = if answer == 1 { self.answered + 1 } else { 0 };
    }
}

/// With so many enrolled: each of the others is polled three times, then it is its turn.
fn longest(enrolled: u64) -> u64 {
    3 * (enrolled - 1) + 1
}

#[derive(Default)]
struct Waits([Wait; CABINETS as usize]);

impl Waits {
    /// An accepted tick of a desk whose enrolment it leaves as it is. With one enrolled every wait is the longest, so none is counted.
    fn tick(&mut self, desk: &Desk, answer: u64, polled: Option<u8>, tally: &mut Tally) {
        let many = desk.numbers().count() as u64;
        for cabinet in desk.numbers() {
            let wait = &mut self.0[cabinet as usize];
            wait.tick(answer);
            if polled == Some(cabinet) {
                assert!(wait.ticks <= longest(many), "cabinet {cabinet} waited {} ticks, {many} enrolled", wait.ticks);
                assert!(wait.answered <= many, "cabinet {cabinet} waited {} answers, {many} enrolled", wait.answered);
                let is_longest = many > 1 && wait.ticks == longest(many);
                tally.count("waits of the longest that n enrolled allow", is_longest as u64);
                tally.count("waits of 94 ticks", (wait.ticks == 94) as u64);
                tally.count("waits of n ticks with all answering", (many > 1 && wait.answered == many) as u64);
                *wait = Wait::default();
            } else {
                assert!(wait.ticks < longest(many), "cabinet {cabinet} waits after {} ticks, {many} enrolled", wait.ticks);
                assert!(wait.answered < many, "cabinet {cabinet} waits after {} answers, {many} enrolled", wait.answered);
            }
        }
    }
}

// The desk.

#[derive(Default)]
struct SinceFresh {
    book: Book,
    waits: Waits,
}

impl SinceFresh {
    /// A call, its answer, and the desk before and after it.
    fn call(&mut self, call: Call, answer: Answer, before: &Desk, after: &Desk, tally: &mut Tally) {
        assert_eq!(self.book.call(call), answer, "what {call:?} answers on {before:?}");
        assert_eq!(self.book.desk(), *after, "the desk after {call:?} on {before:?}");
        if before.enrolled != after.enrolled {
            self.waits = Waits::default();
        }
        if let (Call::Tick(told), 0) = (call, answer.refusal) {
            self.waits.tick(after, told, answer.polled, tally);
        }
    }
}

pub struct Watched {
    desk: Desk,
    since_fresh: Option<SinceFresh>,
}

impl Watched {
    pub fn fresh() -> Watched {
        Watched { desk: Desk::default(), since_fresh: Some(SinceFresh::default()) }
    }

    /// A desk of any numbers. Of what was before it nothing is known.
    pub fn given(desk: Desk) -> Watched {
        Watched { desk, since_fresh: None }
    }

    pub fn desk(&self) -> &Desk {
        &self.desk
    }

    pub fn call(&mut self, call: Call, tally: &mut Tally) -> Answer {
        let before = self.desk;
        let answer = self.desk.call(call);
        desk_claim::hold(&before, call, answer, &self.desk);
        if let Some(since_fresh) = &mut self.since_fresh {
            since_fresh.call(call, answer, &before, &self.desk, tally);
        }
        answer
    }
}
