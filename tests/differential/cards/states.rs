//! Instances whose active factors are any doubles, and cards of them.

use super::bytes::Bytes;
use super::call::Lent;
use super::words::{places, State};
use crate::buffers::surplus;
use crate::data::odd_value;
use crate::managed::call::Instance;
use crate::managed::counter::END;
use crate::random::Random;

/// Of a dimension and a capacity. The unused storage holds anything.
pub fn any_instance(n: usize, c: usize, random: &mut Random) -> Instance {
    let mut instance = Instance::new(n, c, random);
    for (name, place) in places(c, n) {
        instance.buffers[name].slice_mut()[place] = any_double(random);
    }
    instance.counter = any_counter(random);
    instance
}

/// Any bits; a NaN of any pattern, an infinity, a zero or a subnormal; or the NaN that
/// cards have.
pub fn any_double(random: &mut Random) -> f64 {
    match random.below(12) {
        0 => f64::NAN,
        1..=4 => odd_value(random),
        _ => f64::from_bits(random.bits()),
    }
}

/// 0, small, beside the end, beyond it, or anything. 2^32 is 0 in 32 bits.
pub fn any_counter(random: &mut Random) -> usize {
    const MAX: usize = usize::MAX;
    match random.below(6) {
        0 => 0,
        1 => random.below(1000),
        2 => END - random.below(3),
        3 => random.pick(&[END + 1, END + 2, 1 << 32, 1 << 63, MAX - 1, MAX]),
        4 => random.below(END + 1),
        _ => (random.bits() >> random.below(64)) as usize,
    }
}

/// Mostly up to 12, sometimes up to 40.
pub fn any_dimension(random: &mut Random) -> usize {
    match random.below(16) {
        0 => 0,
        1 => random.between(13, 40) as usize,
        2..=6 => random.between(1, 6) as usize,
        _ => random.between(1, 12) as usize,
    }
}

/// A capacity for a dimension, often no larger.
pub fn any_capacity(n: usize, random: &mut Random) -> usize {
    n + random.pick(&[0, 0, 1, 2, 5])
}

/// Storage of a capacity, whose dimension and counter are nothing.
pub fn empty_storage(c: usize, random: &mut Random) -> Instance {
    Instance {
        n: random.bits() as usize,
        counter: random.bits() as usize,
        ..Instance::new(0, c, random)
    }
}

/// An instance and a buffer for its card, which is sometimes longer than needed.
pub fn to_write(instance: Instance, random: &mut Random) -> Lent {
    let needed = State::of(&instance).words().bytes().len();
    let some = surplus(random);
    let beyond = random.pick(&[0, 0, some, 1, 511, 512, 513]);
    Lent {
        instance,
        card: Bytes::new(needed + beyond, random),
    }
}

/// A card to be read into storage of a capacity.
pub fn to_read(bytes: &[u8], c: usize, random: &mut Random) -> Lent {
    Lent {
        instance: empty_storage(c, random),
        card: Bytes::holding(bytes, random),
    }
}
