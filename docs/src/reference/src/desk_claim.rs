//! What document 02 says of one call of the polling desk, held to a desk before and after it by other means than the rules: with masks and
//! 64-bit numbers. It holds on any desk.

use crate::desk::{Answer, Call, Desk};

/// The lowest number of a mask.
fn lowest(mask: u32) -> Option<u8> {
    (mask != 0).then(|| mask.trailing_zeros() as u8)
}

/// The first number of a mask above this one, around past 31.
fn first_above(mask: u32, number: u8) -> Option<u8> {
    let turned = (mask as u64 | (mask as u64) << 32) >> (number + 1);
    (turned != 0).then(|| ((turned.trailing_zeros() + number as u32 + 1) % 32) as u8)
}

/// "Order: 13 for a desk whose turn is above 31 or whose tries exceed 3, then 18."
fn refusal(desk: &Desk, call: Call) -> u8 {
    let too_large = match call {
        Call::Enrol(cabinet) | Call::Remove(cabinet) => cabinet >> 5 != 0,
        Call::Tick(answer) => answer >> 1 != 0,
    };
    match (desk.turn, desk.tries) {
        (0..=31, 0..=3) if too_large => 18,
        (0..=31, 0..=3) => 0,
        _ => 13,
    }
}

/// Turn and tries after a removal.
fn after_removal(desk: &Desk, bit: u32) -> (u8, u8) {
    let is_in_turn = desk.tries != 0 && 1 << desk.turn == bit;
    (desk.turn, if is_in_turn && desk.mask() & bit != 0 { 3 } else { desk.tries })
}

/// Turn and tries after a tick: tries 0 where nobody is polled.
fn after_tick(desk: &Desk, answer: u64) -> (u8, u8) {
    let mask = desk.mask();
    let stays = answer == 0 && [1, 2].contains(&desk.tries) && mask >> desk.turn & 1 == 1;
    let passed_to = match desk.tries {
        0 => lowest(mask),
        _ => first_above(mask, desk.turn),
    };
    match passed_to {
        _ if stays => (desk.turn, desk.tries + 1),
        Some(cabinet) => (cabinet, 1),
        None => (0, 0),
    }
}

/// Holds a call, its answer and the desk after it to the words of the page.
pub fn hold(before: &Desk, call: Call, answer: Answer, after: &Desk) {
    let refusal = refusal(before, call);
    assert_eq!(answer.refusal, refusal, "the refusal of {call:?} on {before:?}");
    let mask = before.mask();
    let unchanged = (before.turn, before.tries);
    let (wanted, mask, polls) = match call {
        // "refused, the desk is unchanged and nobody is polled"
        _ if refusal != 0 => (unchanged, mask, false),
        Call::Enrol(cabinet) => (unchanged, mask | 1 << cabinet, false),
        Call::Remove(cabinet) => (after_removal(before, 1 << cabinet), mask & !(1 << cabinet), false),
        Call::Tick(told) => (after_tick(before, told), mask, true),
    };
    let polled = (polls && wanted.1 != 0).then_some(wanted.0);
    assert_eq!(answer.polled, polled, "whom {call:?} polls on {before:?}");
    assert_eq!((after.turn, after.tries), wanted, "turn and tries after {call:?} on {before:?}");
    assert_eq!(after.mask(), mask, "who is enrolled after {call:?} on {before:?}");
}
