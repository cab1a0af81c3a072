//! The doubles that calls are given: ordinary ones, ones that tie and cancel,
//! ones beside the tolerances, and everything that IEEE 754 has besides numbers.

use crate::random::Random;

/// The tolerances E and T of an interface.
#[derive(Clone, Copy)]
pub struct Tolerances {
    pub e: f64,
    pub t: f64,
}

pub const ZERO_BASED: Tolerances = Tolerances {
    e: 2.22e-16,
    t: 2.22e-16 * 0.0001,
};
pub const MANAGED: Tolerances = Tolerances {
    e: f64::EPSILON,
    t: f64::EPSILON * 0.0001,
};

#[derive(Clone, Copy)]
pub enum Kind {
    Uniform,
    SmallInteger,
    PowerOfTwo,
    Tolerance,
    Wide,
    Subnormal,
    Extreme,
    Zero,
    Infinity,
    Nan,
    AnyBits,
}

use Kind::*;

const ALL: [Kind; 11] = [
    Uniform,
    SmallInteger,
    PowerOfTwo,
    Tolerance,
    Wide,
    Subnormal,
    Extreme,
    Zero,
    Infinity,
    Nan,
    AnyBits,
];

/// What a list of calls draws its data from: the rare kind in `rate` of 64
/// cases, else the common one.
#[derive(Clone, Copy)]
pub struct Profile {
    common: Kind,
    rare: Kind,
    rate: usize,
}

const fn profile(common: Kind, rare: Kind, rate: usize) -> Profile {
    Profile { common, rare, rate }
}

const ORDINARY: [Profile; 8] = [
    profile(Uniform, Uniform, 0),
    profile(Uniform, Uniform, 0),
    profile(Uniform, Zero, 32),
    profile(Uniform, PowerOfTwo, 16),
    profile(SmallInteger, SmallInteger, 0),
    profile(SmallInteger, Zero, 32),
    profile(PowerOfTwo, Zero, 24),
    profile(Wide, Zero, 4),
];

const ADVERSARIAL: [Profile; 18] = [
    profile(PowerOfTwo, Tolerance, 16),
    profile(SmallInteger, Tolerance, 16),
    profile(Uniform, Tolerance, 8),
    profile(Tolerance, PowerOfTwo, 16),
    profile(Tolerance, Zero, 8),
    profile(Zero, PowerOfTwo, 16),
    profile(Zero, Uniform, 12),
    profile(Subnormal, Zero, 8),
    profile(Subnormal, PowerOfTwo, 16),
    profile(Extreme, Zero, 8),
    profile(Uniform, Extreme, 4),
    profile(SmallInteger, Nan, 1),
    profile(Uniform, Nan, 1),
    profile(PowerOfTwo, Infinity, 1),
    profile(Uniform, Infinity, 1),
    profile(Zero, Nan, 2),
    profile(Tolerance, Infinity, 1),
    profile(AnyBits, AnyBits, 0),
];

impl Profile {
    pub fn choose(random: &mut Random) -> Self {
        if random.chance(1, 2) {
            random.pick(&ORDINARY)
        } else if random.chance(7, 8) {
            random.pick(&ADVERSARIAL)
        } else {
            profile(random.pick(&ALL), random.pick(&ALL), random.below(33))
        }
    }

    /// Itself, or now and then another.
    pub fn or_other(self, random: &mut Random) -> Self {
        if random.chance(1, 16) {
            Self::choose(random)
        } else {
            self
        }
    }

    pub fn value(self, random: &mut Random) -> f64 {
        let kind = if random.chance(self.rate, 64) {
            self.rare
        } else {
            self.common
        };
        value(kind, random)
    }
}

fn value(kind: Kind, random: &mut Random) -> f64 {
    let magnitude = match kind {
        Uniform => random.unit(),
        SmallInteger => random.below(4) as f64,
        PowerOfTwo => power_of_two(random, 4),
        Tolerance => tolerance(random),
        Wide => random.unit() * power_of_two(random, 60),
        Subnormal => subnormal(random),
        Extreme => extreme(random),
        Zero => 0.0,
        Infinity => f64::INFINITY,
        Nan => nan(random),
        AnyBits => f64::from_bits(random.bits()),
    };
    random.sign(magnitude)
}

fn power_of_two(random: &mut Random, largest: i64) -> f64 {
    2f64.powi(random.between(-largest, largest) as i32)
}

/// Beside E, T or the square of E, of either interface, also times a small number.
fn tolerance(random: &mut Random) -> f64 {
    const SCALES: [f64; 7] = [1.0, 1.0, 1.0, 0.5, 2.0, 3.0, 4.0];
    let Tolerances { e, t } = random.pick(&[ZERO_BASED, MANAGED]);
    let base = random.pick(&[e, e, e, t, t, t, e * e]);
    beside(base * random.pick(&SCALES), random)
}

/// `magnitude`, or a double up to two places from it.
fn beside(magnitude: f64, random: &mut Random) -> f64 {
    let steps = random.pick(&[-2, -1, 0, 0, 0, 1, 1, 2]);
    f64::from_bits(magnitude.to_bits().saturating_add_signed(steps))
}

/// The same with either sign.
pub fn near(magnitude: f64, random: &mut Random) -> f64 {
    let value = beside(magnitude, random);
    random.sign(value)
}

fn subnormal(random: &mut Random) -> f64 {
    match random.below(4) {
        0 => f64::from_bits(random.bits() >> 12),
        1 => f64::from_bits(random.bits() >> random.between(13, 63)),
        2 => beside(f64::MIN_POSITIVE, random),
        _ => f64::from_bits(1 + random.bits() % 3),
    }
}

fn extreme(random: &mut Random) -> f64 {
    const MAGNITUDES: [f64; 8] = [
        f64::MAX,
        1e308,
        1e300,
        1e155,
        1e-155,
        1e-300,
        f64::MIN_POSITIVE,
        1.0,
    ];
    let magnitude = random.pick(&MAGNITUDES);
    magnitude * (1.0 - random.unit() / 2.0)
}

/// A NaN of any payload, quiet or signalling.
fn nan(random: &mut Random) -> f64 {
    f64::from_bits(0x7ff0_0000_0000_0001 | (random.bits() >> 12))
}

/// An infinity or a NaN, of either sign.
pub fn non_finite_value(random: &mut Random) -> f64 {
    let next_to_infinity = f64::from_bits(0x7ff0_0000_0000_0001);
    let any = nan(random);
    let magnitude = random.pick(&[f64::INFINITY, f64::NAN, next_to_infinity, any, any]);
    random.sign(magnitude)
}

/// A finite value in place of each infinity and NaN: of any kind, or of the largest magnitude.
pub fn make_finite(values: &mut [f64], random: &mut Random) {
    const KINDS: [Kind; 6] = [Uniform, SmallInteger, Tolerance, Subnormal, Extreme, Zero];
    for entry in values.iter_mut().filter(|entry| !entry.is_finite()) {
        let any = value(random.pick(&KINDS), random);
        *entry = random.pick(&[any, any, any, f64::MAX, -f64::MAX]);
    }
}

/// A NaN, an infinity, a zero or a subnormal.
pub fn odd_value(random: &mut Random) -> f64 {
    let kind = random.pick(&[Nan, Nan, Infinity, Zero, Subnormal]);
    value(kind, random)
}

/// What unused storage and workspaces hold: often NaNs, each with a payload of
/// its own, so that a read shows and so does a write.
pub fn unused_value(random: &mut Random) -> f64 {
    let kind = random.pick(&[Nan, Nan, Nan, Nan, Uniform, AnyBits, Zero, Infinity]);
    value(kind, random)
}
