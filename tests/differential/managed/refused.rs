//! Calls that are refused, made from calls that agree.

use super::call::{Call, Function, Instance, DATA};
use super::refusals::{lengths, Cause};
use crate::buffers::{Buffer, Name, VECTORS};
use crate::data::non_finite_value;
use crate::places::diagonal;
use crate::random::Random;

const MAX: usize = usize::MAX;

/// Capacities whose lengths exceed usize. For the last two the product is 2 and
/// 0 in 64 bits.
pub const TOO_LARGE: [usize; 7] = [
    1 << 32,
    (1 << 32) + 1,
    1 << 33,
    MAX / 2,
    MAX / 2 + 1,
    MAX - 1,
    MAX,
];

/// Capacities whose lengths fit usize, but not memory.
const LARGE: [usize; 3] = [1 << 31, (1 << 32) - 2, (1 << 32) - 1];

/// The largest dimension for which vectors are lent.
const LENDABLE: usize = 200;

/// Makes the causes hold, as far as they can hold at once, and no others but
/// those that come with them.
pub fn make_refused(
    causes: &[Cause],
    call: &mut Call,
    instance: &mut Instance,
    random: &mut Random,
) {
    set_numbers(causes, instance, random);
    if instance.n <= LENDABLE {
        fit_lengths(call.function, instance, random);
    }
    for &cause in causes.iter().rev() {
        set_other(cause, call, instance, random);
    }
}

fn set_numbers(causes: &[Cause], instance: &mut Instance, random: &mut Random) {
    let Instance { n, c, .. } = instance;
    let short = causes.contains(&Cause::ShortL) && causes.contains(&Cause::ShortU);
    if causes.contains(&Cause::Overflow) {
        *c = random.pick(&TOO_LARGE);
    } else if short && random.chance(1, 4) {
        *c = random.pick(&LARGE);
    }
    if causes.contains(&Cause::Dimension) {
        let next = c.saturating_add(1);
        *n = beyond(next, random);
    }
    if causes.contains(&Cause::NoRoom) {
        if *c > LENDABLE || random.chance(1, 2) {
            *n = *c;
        } else {
            *c = *n;
        }
    }
}

/// `least` or more, often no more. 2^32 is 0 in 32 bits.
pub fn beyond(least: usize, random: &mut Random) -> usize {
    let next = least.saturating_add(1);
    random.pick(&[least, least, next, least.max(1 << 32), MAX])
}

/// Lengths that agree with the dimension.
fn fit_lengths(function: Function, instance: &mut Instance, random: &mut Random) {
    let Instance { n, buffers, .. } = instance;
    for name in DATA {
        buffers[name].set_len(*n, random);
    }
    let needed = function.workspace_length(*n) as usize;
    for name in VECTORS {
        let length = buffers[name].len().max(needed);
        buffers[name].set_len(length, random);
    }
}

fn set_other(cause: Cause, call: &mut Call, instance: &mut Instance, random: &mut Random) {
    let Instance { n, c, buffers, .. } = instance;
    let (l, u) = lengths(*c);
    match cause {
        Cause::Dimension | Cause::Overflow | Cause::NoRoom => {}
        Cause::ShortL => shorten(&mut buffers[Name::L], l, random),
        Cause::ShortU => shorten(&mut buffers[Name::U], u, random),
        Cause::UnequalWorkspaces => {
            let workspace = &mut buffers[random.pick(&VECTORS)];
            let length = other_length(workspace.len(), random);
            workspace.set_len(length, random);
        }
        Cause::Row => call.row = beyond(*n, random),
        Cause::Column => call.column = beyond(*n, random),
        Cause::RowLength => change_length(&mut buffers[Name::Row], *n, random),
        Cause::ColumnLength => change_length(&mut buffers[Name::Column], *n, random),
        Cause::RightHandSideLength => change_length(&mut buffers[Name::RightHandSide], *n, random),
        Cause::NonFiniteData => set_non_finite_data(call, instance, random),
        Cause::ShortWorkspaces => {
            let needed = call.function.workspace_length(*n);
            shorten(&mut buffers[Name::Y], needed, random);
            let length = buffers[Name::Y].len();
            buffers[Name::Z].set_len(length, random);
            buffers[Name::W].set_len(length, random);
        }
        Cause::Diagonal => set_bad_diagonal(instance, random),
    }
}

/// To less than `needed`, often to one less.
pub fn shorten(buffer: &mut Buffer, needed: u128, random: &mut Random) {
    if needed > 0 && buffer.len() as u128 >= needed {
        let needed = needed as usize;
        let any = random.below(needed);
        let length = random.pick(&[needed - 1, needed - 1, 0, any]);
        buffer.set_len(length, random);
    }
}

/// To another than n.
fn change_length(buffer: &mut Buffer, n: usize, random: &mut Random) {
    if buffer.len() == n {
        buffer.set_len(other_length(n, random), random);
    }
}

/// A length that is lent in place of another.
pub fn other_length(length: usize, random: &mut Random) -> usize {
    match random.below(4) {
        _ if length > LENDABLE => 0,
        0 if length > 0 => length - 1,
        1 if length > 0 => 0,
        2 => 2 * length + 1,
        _ => length + 1,
    }
}

/// One active diagonal entry of U, or two, that a solve is refused for.
fn set_bad_diagonal(instance: &mut Instance, random: &mut Random) {
    let Instance { n, c, buffers, .. } = instance;
    let u = buffers[Name::U].slice_mut();
    let places: Vec<_> = diagonal(*c, *n.min(c))
        .take_while(|&place| place < u.len())
        .collect();
    if places.is_empty() {
        return;
    }
    for _ in 0..random.between(1, 2) {
        let bad = random.pick(&[0.0, f64::INFINITY, f64::NAN]);
        u[random.pick(&places)] = random.sign(bad);
    }
}

/// An infinity or a NaN at a place of an update's data, or at several, or in the whole of
/// a row or a column.
pub fn set_non_finite_data(call: &mut Call, instance: &mut Instance, random: &mut Random) {
    let mut parts = call.data_mut(instance);
    parts.retain(|part| !part.is_empty());
    if parts.is_empty() {
        return;
    }
    for _ in 0..random.pick(&[1, 1, 2, 3]) {
        let k = random.below(parts.len());
        let part = &mut parts[k];
        if random.chance(1, 8) {
            part.fill_with(|| non_finite_value(random));
        } else {
            part[random.index(part.len())] = non_finite_value(random);
        }
    }
}
