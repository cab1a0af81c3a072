//! The counter of pair steps, by document 02: where a list starts it, what an
//! update leaves in it, and how many pair steps an update can make.

use super::call::{Call, Function};
use crate::random::Random;

/// The figure that the counter stops at.
pub const END: usize = 999_999;

/// Mostly 0, as at adoption. Else beside the end, beyond it, or anywhere. 2^32 is 0
/// in 32 bits.
pub fn start(random: &mut Random) -> usize {
    const MAX: usize = usize::MAX;
    match random.below(12) {
        0 | 1 => END - random.below(10),
        2 | 3 => random.pick(&[END + 1, END + 2, 1 << 32, 1 << 63, MAX - 1, MAX]),
        4 => (random.bits() >> random.below(64)) as usize,
        _ => 0,
    }
}

/// After an accepted update. A figure beyond the end counts as the end.
pub fn after(counter: usize, steps: usize) -> usize {
    (counter.min(END) + steps).min(END)
}

/// As many pair steps as document 02 allows an update at dimension n.
pub fn allowed(call: &Call, n: usize) -> usize {
    match call.function {
        Function::Push => n,
        Function::ReplaceRow => 2 * (n - 1),
        Function::ReplaceColumn => 2 * (n - 1 - call.column),
        _ => 3 * (n - 1),
    }
}

/// As many as it can make, remove at column 0: Backward has a row less than Forward
/// where they restore a column.
pub fn most(call: &Call, n: usize) -> usize {
    match call.function {
        Function::Push | Function::ReplaceRow => allowed(call, n),
        _ => allowed(call, n).saturating_sub(1),
    }
}
