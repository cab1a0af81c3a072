//! Data at the guards of an update: where a pair step is skipped, where a row
//! is trimmed, and where a pair step clears its pivot.

use crate::data::{near, Tolerances};
use crate::places::u_place;
use crate::random::Random;

/// The entries of a row that Forward meets with the given pivots: zero up to
/// some row, then at the guard.
pub fn at_forward(y: &mut [f64], pivots: &[f64], tolerances: Tolerances, random: &mut Random) {
    let row = random.below(y.len());
    for value in &mut y[..row] {
        *value = random.sign(0.0);
    }
    y[row] = guard(pivots[row], tolerances, random);
}

/// Two entries of a vector of length n, one at the guard of the other.
pub fn at_backward(vector: &mut [f64], tolerances: Tolerances, random: &mut Random) {
    let pivot = match random.below(6) {
        0 | 1 => Some(near(tolerances.e, random)),
        2 => Some(near(tolerances.t, random)),
        _ => None,
    };
    at_pair(vector, pivot, tolerances, random);
}

/// The same with a given pivot, or with an entry of the vector.
fn at_pair(vector: &mut [f64], pivot: Option<f64>, tolerances: Tolerances, random: &mut Random) {
    let (row, selected) = (random.below(vector.len()), random.below(vector.len()));
    vector[selected] = pivot.unwrap_or(vector[selected]);
    if row < selected {
        vector[row] = guard(vector[selected], tolerances, random);
    }
    vector[selected + 1..].fill(0.0);
}

/// Beside E * |value|, or beside a T where a pair step clears its pivot.
fn guard(value: f64, tolerances: Tolerances, random: &mut Random) -> f64 {
    let limit = if value.is_nan() || random.chance(1, 6) {
        tolerances.t
    } else {
        tolerances.e * value.abs()
    };
    near(limit, random)
}

/// A pivot of U beside T, with the entry of y that Forward meets there no larger.
pub fn at_pivot(
    y: &mut [f64],
    u: &mut [f64],
    stride: usize,
    tolerances: Tolerances,
    random: &mut Random,
) {
    let t = tolerances.t;
    let row = random.below(y.len());
    let pivot = random.pick(&[t, t, t, 0.0, t / 2.0]);
    u[u_place(stride, row, row)] = near(pivot, random);
    y[..row].fill(0.0);
    let other = random.pick(&[t, t / 2.0, 0.0]);
    y[row] = near(other, random);
}

/// The entries at `places`, a column of L or U, at the guard of Backward. A NaN
/// is a pivot that a pair step can clear although Backward has trimmed.
pub fn at_column(
    slice: &mut [f64],
    places: impl Iterator<Item = usize>,
    tolerances: Tolerances,
    random: &mut Random,
) {
    let places: Vec<_> = places.collect();
    let mut values: Vec<_> = places.iter().map(|&place| slice[place]).collect();
    if random.chance(1, 8) {
        at_pair(&mut values, Some(f64::NAN), tolerances, random);
    } else {
        at_backward(&mut values, tolerances, random);
    }
    for (place, value) in places.into_iter().zip(values) {
        slice[place] = value;
    }
}

/// A column beside T. Where a row of L has a NaN, Backward can then clear a pivot.
pub fn at_tiny(column: &mut [f64], tolerances: Tolerances, random: &mut Random) {
    for value in column {
        *value = near(tolerances.t, random);
    }
}
