//! Ready with one value at every place of the storage in turn, active or not, and in small
//! storage with two values at every two places. Both solves are made on the same storage: they
//! are carried out wherever U's diagonal allows it, ready or not. How often each case occurs
//! follows from the dimension, the lengths and the values alone.

use super::answer::Answer;
use super::call::{Call, Function, Instance};
use super::comparison::{Comparison, Sides};
use crate::buffers::Name;
use crate::calls::End;
use crate::data::{non_finite_value, Profile};
use crate::factors::fill_unused;
use crate::random::Random;

/// The largest dimension with two values, in storage of at most one row more; with one value
/// of each kind; with an infinity or a NaN at every dimension; and at some.
const WITH_TWO: usize = 5;
const WITH_ONE: usize = 6;
const WITHOUT_GAPS: usize = 24;
const LARGER: usize = 40;

/// The archive looks at four values of a row together: here a row has two fours.
const TWO_FOURS: usize = 8;

/// How much the capacity exceeds the dimension, and the lengths what the capacity asks for.
const SHAPES: [(usize, usize); 6] = [(0, 0), (1, 0), (3, 0), (0, 2), (1, 2), (3, 2)];

/// Infinities, NaNs, zeros, subnormals, the smallest normal number and the largest. NaNs are
/// quiet and signalling, some with a single bit of payload, in either half.
const VALUES: [u64; 18] = [
    0x7ff0_0000_0000_0000,
    0xfff0_0000_0000_0000,
    0x7ff8_0000_0000_0000,
    0xfff8_0000_0000_0000,
    0x7ff0_0000_0000_0001,
    0xfff0_0000_0000_0001,
    0x7ff4_0000_0000_0000,
    0xfff7_ffff_ffff_ffff,
    0x7fff_ffff_ffff_ffff,
    0xffff_ffff_ffff_ffff,
    0x0000_0000_0000_0000,
    0x8000_0000_0000_0000,
    0x0000_0000_0000_0001,
    0x8000_0000_0000_0001,
    0x000f_ffff_ffff_ffff,
    0x8010_0000_0000_0000,
    0x7fef_ffff_ffff_ffff,
    0xffef_ffff_ffff_ffff,
];

/// The sum of the last but one pair is not finite, and the product of the last is zero.
const PAIRS: [[f64; 2]; 6] = [
    [f64::INFINITY, f64::NEG_INFINITY],
    [f64::NAN, f64::INFINITY],
    [0.0, f64::NAN],
    [f64::MIN_POSITIVE, -0.0],
    [f64::MAX, f64::MAX],
    [1e-200, 1e-200],
];

/// What becomes of ready and of the solves. The last is not to occur.
const CASES: [&str; 4] = [
    "ready and solved",
    "not ready and solved",
    "not ready and refused",
    "ready and refused",
];

/// How often each has occurred.
pub type Cases = [usize; CASES.len()];

/// A buffer and a place in it.
type Entry = (Name, usize);

struct Search<'a> {
    random: &'a mut Random,
    comparison: &'a mut Comparison,
    cases: Cases,
}

/// Small factors in storage of every shape, one of each larger dimension, and so many larger
/// still.
pub fn search(larger: u64, random: &mut Random, comparison: &mut Comparison) -> Result<Cases, End> {
    let mut search = Search {
        random,
        comparison,
        cases: [0; CASES.len()],
    };
    for n in 0..=WITH_ONE {
        for (room, surplus) in SHAPES {
            let sound = sound(n, n + room, surplus, search.random);
            search.try_small(&sound)?;
        }
    }
    let two_fours = sound(TWO_FOURS, TWO_FOURS, 0, search.random);
    search.try_two(&two_fours, [f64::NAN, f64::INFINITY])?;
    (WITH_ONE + 1..=WITHOUT_GAPS).try_for_each(|n| search.try_larger(n))?;
    for _ in 0..larger {
        let n = search.random.between(WITHOUT_GAPS as i64 + 1, LARGER as i64);
        search.try_larger(n as usize)?;
    }
    Ok(search.cases)
}

impl Search<'_> {
    fn try_small(&mut self, sound: &Instance) -> Result<(), End> {
        self.try_unused(sound)?;
        for value in VALUES.map(f64::from_bits) {
            self.try_one(sound, effect(value, sound.n), |_| value)?;
        }
        if sound.n <= WITH_TWO && sound.c <= sound.n + 1 {
            for values in PAIRS {
                self.try_two(sound, values)?;
            }
        }
        Ok(())
    }

    /// An infinity or a NaN at every place, each of its own.
    fn try_larger(&mut self, n: usize) -> Result<(), End> {
        let (room, surplus) = self.random.pick(&SHAPES);
        let sound = sound(n, n + room, surplus, self.random);
        self.try_unused(&sound)?;
        self.try_one(&sound, effect(f64::NAN, n), non_finite_value)
    }

    /// Anything at all in the storage that is not active.
    fn try_unused(&mut self, sound: &Instance) -> Result<(), End> {
        let mut instance = sound.clone();
        fill_unused(&mut instance.buffers, sound.c, sound.n, self.random);
        let mut found = [0; CASES.len()];
        self.call_all(&instance, &mut found)?;
        self.check(sound, found, 1, [0, 0])
    }

    /// A value at every place in turn.
    fn try_one(
        &mut self,
        sound: &Instance,
        effect: [usize; 2],
        mut value: impl FnMut(&mut Random) -> f64,
    ) -> Result<(), End> {
        let entries = entries(sound);
        let mut found = [0; CASES.len()];
        for &entry in &entries {
            let instance = holding(sound, &[(entry, value(self.random))]);
            self.call_all(&instance, &mut found)?;
        }
        self.check(sound, found, entries.len(), effect)
    }

    /// Two values at every two places.
    fn try_two(&mut self, sound: &Instance, values: [f64; 2]) -> Result<(), End> {
        let entries = entries(sound);
        let mut found = [0; CASES.len()];
        for &first in &entries {
            for &second in entries.iter().filter(|&&second| second != first) {
                let instance = holding(sound, &[(first, values[0]), (second, values[1])]);
                self.call_all(&instance, &mut found)?;
            }
        }
        let places = entries.len();
        let [first, second] = values.map(|value| effect(value, sound.n));
        let effect = [0, 1].map(|k| pairs(places, first[k], second[k]));
        self.check(sound, found, places * places.saturating_sub(1), effect)
    }

    /// Counts the case of ready and of both solves on an instance.
    fn call_all(&mut self, instance: &Instance, found: &mut Cases) -> Result<(), End> {
        let ready = self.call(Function::Ready, instance)?.outputs.ready == 1;
        let plain = self.call(Function::Solve, instance)?;
        let transposed = self.call(Function::SolveTranspose, instance)?;
        let solved = plain.number == 0 && transposed.number == 0;
        let case = match (ready, solved) {
            (true, true) => 0,
            (false, true) => 1,
            (false, false) => 2,
            (true, false) => 3,
        };
        found[case] += 1;
        Ok(())
    }

    /// A call on a copy, with a right-hand side of its own.
    fn call(&mut self, function: Function, instance: &Instance) -> Result<Answer, End> {
        let mut copy = instance.clone();
        let profile = Profile::choose(self.random);
        copy.lend(Name::RightHandSide, copy.n, profile, self.random);
        let mut sides = Sides::alone(copy);
        self.comparison
            .answer(&Call::of(function), &mut sides, self.random)
    }

    /// Compares the cases found, which the driver's rule gave, with those that there are.
    fn check(
        &mut self,
        sound: &Instance,
        found: Cases,
        all: usize,
        [not_ready, refused]: [usize; 2],
    ) -> Result<(), End> {
        let expected = [all - not_ready, not_ready - refused, refused, 0];
        for (k, what) in CASES.into_iter().enumerate() {
            if found[k] != expected[k] {
                let Instance { n, c, .. } = sound;
                let (found, expected) = (found[k], expected[k]);
                println!("difference at n {n} c {c}: {what} {found} times, expected {expected}");
                return Err(End::Differs);
            }
            self.cases[k] += found[k];
        }
        Ok(())
    }
}

/// Factors that are ready. The storage holds numbers other than zero throughout.
fn sound(n: usize, c: usize, surplus: usize, random: &mut Random) -> Instance {
    let mut instance = Instance::new(n, c, random);
    for (name, needed) in [(Name::L, c * (c + 1)), (Name::U, c * (c + 1) / 2)] {
        let buffer = &mut instance.buffers[name];
        buffer.set_len(needed + surplus, random);
        for value in buffer.slice_mut() {
            let magnitude = 1.0 + random.unit();
            *value = random.sign(magnitude);
        }
    }
    instance
}

/// The same with other values at some places.
fn holding(sound: &Instance, values: &[(Entry, f64)]) -> Instance {
    let mut instance = sound.clone();
    for &((name, place), value) in values {
        instance.buffers[name].slice_mut()[place] = value;
    }
    instance
}

pub fn text(cases: &Cases) -> String {
    let counts = CASES.into_iter().zip(cases);
    let counts = counts.map(|(case, count)| format!("{case}: {count}"));
    counts.collect::<Vec<_>>().join(", ")
}

/// All of the storage.
fn entries(instance: &Instance) -> Vec<Entry> {
    let buffer = |name| (0..instance.length(name)).map(move |place| (name, place));
    buffer(Name::L).chain(buffer(Name::U)).collect()
}

/// At how many places the value leaves factors of dimension n not ready, and at how many of
/// these a solve is refused.
fn effect(value: f64, n: usize) -> [usize; 2] {
    match value {
        _ if !value.is_finite() => [n * n + n * (n + 1) / 2, n],
        _ if value == 0.0 => [n, n],
        _ => [0, 0],
    }
}

/// How many pairs of different places have the first value at one of `first` places, or the
/// second at one of `second`. One set of these places lies in the other.
fn pairs(places: usize, first: usize, second: usize) -> usize {
    let all = places * places.saturating_sub(1);
    let (first, second) = (places - first, places - second);
    all - (first * second - first.min(second))
}
