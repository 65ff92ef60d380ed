//! The stored cases of `crates/call_cases`.

use crate::bypass_cases;
use crate::cases;
use crate::midnight_cases;
use crate::moved_cases;
use crate::nearest_cases;
use crate::preemption_cases;
use crate::random::Random;
use crate::record_cases;
use crate::refusal_cases;
use crate::speed_cases;
use crate::tick_cases;

const SEED: u64 = 2;
const DECISIONS: usize = 3500;

pub fn cases() -> Vec<Vec<u8>> {
    let mut r = Random::new(SEED);
    let calls = [preemption_cases::cases(), bypass_cases::cases()].concat();
    let days = [midnight_cases::cases(), moved_cases::cases()].concat();
    let named = [calls, nearest_cases::cases(), days, refusal_cases::cases(), record_cases::cases(), speed_cases::cases()].concat();
    [tick_cases::cases(&mut r), named, cases::cases(&mut r, DECISIONS)].concat()
}
