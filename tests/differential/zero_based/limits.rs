//! Arguments and lengths around each limit of a zero-based call.

use super::arguments::{Arguments, Function};
use crate::buffers::{surplus, Buffers, VECTORS};
use crate::random::Random;

const MIN: i32 = i32::MIN;
const MAX: i32 = i32::MAX;

/// Moves some numbers and lengths of an agreeing call to or beyond a limit.
/// Often one of each kind, so that two refusals meet.
pub fn change(arguments: &mut Arguments, buffers: &mut Buffers, random: &mut Random) {
    let (numbers, lengths) = random.pick(&[(1, 0), (1, 0), (0, 1), (0, 1), (1, 1), (1, 1), (2, 2)]);
    for _ in 0..lengths {
        change_length(arguments, buffers, random);
    }
    for _ in 0..numbers {
        change_number(arguments, random);
    }
}

fn change_number(arguments: &mut Arguments, random: &mut Random) {
    let n = arguments.n;
    let maxmod = arguments.maxmod;
    let (less, more) = (n.saturating_sub(1), n.saturating_add(1));
    let index = [-1, 0, less, n, more, 256, 65536, MIN, MAX];
    let indexed = arguments.function == Function::LUmod;
    match random.below(if indexed { 5 } else { 3 }) {
        0 => arguments.mode = random.pick(&[-1, 0, 1, 2, 3, 4, 5, 6, 257, 65537, MIN, MAX]),
        1 => arguments.maxmod = random.pick(&maxmods(maxmod)),
        2 => arguments.n = random.pick(&dimensions(n, maxmod.max(1))),
        3 => arguments.krow = random.pick(&index),
        _ => arguments.kcol = random.pick(&index),
    }
}

/// 65537 is 1 in 16 bits. The square of 65536 is 0 in 32 bits, and that of
/// 46341 is beyond i32.
fn maxmods(maxmod: i32) -> [i32; 13] {
    let (less, more) = (maxmod.saturating_sub(1), maxmod.saturating_add(1));
    [
        -2, -1, 0, 1, less, more, 46341, 65535, 65536, 65537, 92682, MIN, MAX,
    ]
}

fn dimensions(n: i32, stride: i32) -> [i32; 13] {
    let next = stride.saturating_add(1);
    let (less, more) = (n.saturating_sub(1), n.saturating_add(1));
    [
        -2, -1, 0, 1, less, more, stride, next, next, 257, 65537, MIN, MAX,
    ]
}

fn change_length(arguments: &Arguments, buffers: &mut Buffers, random: &mut Random) {
    let name = random.pick(arguments.function.lent());
    let length = buffers[name].len();
    let length_now = match random.below(8) {
        0..=2 => length.saturating_sub(1),
        3 | 4 => 0,
        5 => random.below(length + 1),
        6 => length + 1 + random.below(5),
        _ => return set_vectors(arguments, buffers, random),
    };
    buffers[name].set_len(length_now, random);
}

/// All three vectors exactly n long, or one shorter.
fn set_vectors(arguments: &Arguments, buffers: &mut Buffers, random: &mut Random) {
    let length = arguments.n as usize - random.below(2);
    for name in VECTORS {
        buffers[name].set_len(length, random);
    }
}

/// A maxmod: mostly up to 12, sometimes up to 40, rarely up to 130.
pub fn capacity(random: &mut Random) -> i32 {
    match random.below(128) {
        0 => random.between(41, 130) as i32,
        1..=6 => random.pick(&[1, 1, 0, -1, -2, MIN]),
        7..=26 => random.between(13, 40) as i32,
        _ => random.between(2, 12) as i32,
    }
}

/// Lengths that a stride and vectors of length n need, or somewhat more.
pub fn lengths(stride: usize, n: usize, random: &mut Random) -> [usize; 5] {
    let l = stride * stride + surplus(random);
    let u = stride * (stride + 1) / 2 + surplus(random);
    let [y, z, w] = vector_lengths(n, random);
    [l, u, y, z, w]
}

/// At least n, all alike in half of the cases.
pub fn vector_lengths(n: usize, random: &mut Random) -> [usize; 3] {
    let alike = random.chance(1, 2);
    let first = n + surplus(random);
    [first; 3].map(|length| if alike { length } else { n + surplus(random) })
}
