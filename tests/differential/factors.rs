//! Factors and vectors that a call is given.

use crate::buffers::{Buffers, Name};
use crate::data::{odd_value, unused_value, Profile};
use crate::places::{active, diagonal, l_place, u_place};
use crate::random::Random;

#[derive(Clone, Copy)]
enum Form {
    Any,
    Identity,
    /// One entry in every row and column, a power of two.
    Permutation,
    UnitLower,
}

/// Active entries at dimension n, not those of any matrix in particular.
pub fn fill_factors(
    buffers: &mut Buffers,
    stride: usize,
    n: usize,
    profile: Profile,
    random: &mut Random,
) {
    fill_l(buffers[Name::L].slice_mut(), stride, n, profile, random);
    let u = buffers[Name::U].slice_mut();
    for i in 0..n {
        for j in i..n {
            u[u_place(stride, i, j)] = profile.value(random);
        }
    }
}

/// NaNs, infinities, zeros and subnormals in place of some of the active entries.
pub fn put_odd_entries(buffers: &mut Buffers, stride: usize, n: usize, random: &mut Random) {
    let places: Vec<_> = active(stride, n).collect();
    for _ in 0..random.below(n + 1) {
        let (name, place) = random.pick(&places);
        buffers[name].slice_mut()[place] = odd_value(random);
    }
}

/// In the sparse forms an L product gives back its vector's own entries.
fn fill_l(l: &mut [f64], stride: usize, n: usize, profile: Profile, random: &mut Random) {
    let form = random.pick(&[
        Form::Any,
        Form::Any,
        Form::Identity,
        Form::Permutation,
        Form::UnitLower,
    ]);
    let shift = random.below(n + 1);
    for i in 0..n {
        for j in 0..n {
            l[l_place(stride, i, j)] = match form {
                Form::Any => profile.value(random),
                Form::Permutation if (i + shift) % n == j => {
                    let power = 2f64.powi(random.between(-1, 1) as i32);
                    random.sign(power)
                }
                Form::Identity | Form::UnitLower if i == j => 1.0,
                Form::UnitLower if i > j => profile.value(random),
                _ => 0.0,
            };
        }
    }
}

pub fn fill_vector(
    buffers: &mut Buffers,
    name: Name,
    n: usize,
    profile: Profile,
    random: &mut Random,
) {
    for value in &mut buffers[name].slice_mut()[..n] {
        *value = profile.value(random);
    }
}

/// A number for each diagonal entry of U that a solve would be refused for.
pub fn replace_bad_diagonal(u: &mut [f64], stride: usize, n: usize, random: &mut Random) {
    for place in diagonal(stride, n) {
        if u[place] == 0.0 || !u[place].is_finite() {
            let magnitude = 1.0 + random.unit();
            u[place] = random.sign(magnitude);
        }
    }
}

/// Gives `to` the active entries of `from`. Each comes with its stride.
pub fn copy_active(n: usize, from: (&Buffers, usize), to: (&mut Buffers, usize)) {
    for ((name, source), (_, place)) in active(from.1, n).zip(active(to.1, n)) {
        to.0[name].slice_mut()[place] = from.0[name].slice()[source];
    }
}

/// Anything at all in the storage that is not active at dimension n.
pub fn fill_unused(buffers: &mut Buffers, stride: usize, n: usize, random: &mut Random) {
    let l = buffers[Name::L].slice_mut();
    for (place, value) in l.iter_mut().enumerate() {
        if n == 0 || place / stride >= n || place % stride >= n {
            *value = unused_value(random);
        }
    }
    let u = buffers[Name::U].slice_mut();
    let mut place = 0;
    for i in 0..stride {
        for j in i..stride {
            if j >= n {
                u[place] = unused_value(random);
            }
            place += 1;
        }
    }
    u[place..].fill_with(|| unused_value(random));
}

/// Whether there is little left to compute with: no number on U's diagonal
/// but zero, or NaNs in most of L.
pub fn is_degenerate(buffers: &Buffers, stride: usize, n: usize) -> bool {
    let (l, u) = (buffers[Name::L].slice(), buffers[Name::U].slice());
    let no_pivot = (0..n)
        .map(|i| u[u_place(stride, i, i)])
        .all(|pivot| pivot == 0.0 || pivot.is_nan());
    let nans = (0..n * n)
        .filter(|k| l[l_place(stride, k / n, k % n)].is_nan())
        .count();
    n > 1 && (no_pivot || 2 * nans > n * n)
}
