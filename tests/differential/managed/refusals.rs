//! Document 01's refusals 1 to 10 and document 02's 13, 14 and 23: when each holds, and in
//! which order they are tested. Also when factors are ready.

use super::call::{Call, Function, Instance};
use crate::buffers::{Name, VECTORS};
use crate::places::{active, diagonal};

/// What a call is refused for.
#[derive(Clone, Copy, PartialEq)]
pub enum Cause {
    Dimension,
    Overflow,
    ShortL,
    ShortU,
    UnequalWorkspaces,
    NoRoom,
    Row,
    Column,
    RowLength,
    ColumnLength,
    RightHandSideLength,
    NonFiniteData,
    ShortWorkspaces,
    Diagonal,
}

use Cause::*;

/// The refusal that the Rust does not have: it takes such data.
pub const NON_FINITE_DATA: u32 = 23;

impl Function {
    /// What the function is refused for, in the order in which it is tested: document 01's,
    /// with U right after L, the workspaces after U, and the data after their lengths, as
    /// document 02 has it.
    pub fn causes(self) -> Vec<Cause> {
        let storage = [Dimension, Overflow, ShortL, ShortU];
        let other: &[Cause] = match self {
            Function::StorageLengths => return vec![Overflow],
            Function::FromStorage | Function::Ready => &[],
            Function::Push => &[
                NoRoom,
                RowLength,
                ColumnLength,
                NonFiniteData,
                ShortWorkspaces,
            ],
            Function::ReplaceRow => &[Row, RowLength, NonFiniteData, ShortWorkspaces],
            Function::ReplaceColumn => &[Column, ColumnLength, NonFiniteData, ShortWorkspaces],
            Function::Remove => &[Row, Column, ShortWorkspaces],
            Function::Solve | Function::SolveTranspose => &[RightHandSideLength, Diagonal],
        };
        let workspaces: &[Cause] = if self.is_update() {
            &[UnequalWorkspaces]
        } else {
            &[]
        };
        [&storage, workspaces, other].concat()
    }

    /// All numbers that the function can return.
    pub fn numbers(self) -> Vec<u32> {
        let causes = self.causes().into_iter();
        let refusals = causes.flat_map(|cause| cause.numbers().iter().copied());
        let mut numbers: Vec<u32> = std::iter::once(0).chain(refusals).collect();
        numbers.dedup();
        numbers
    }

    /// How long the workspaces must be at dimension n.
    pub fn workspace_length(self, n: usize) -> u128 {
        n as u128 + u128::from(self == Function::Push)
    }
}

impl Cause {
    pub fn holds(self, call: &Call, instance: &Instance) -> bool {
        let Instance { n, c, .. } = *instance;
        let (l, u) = lengths(c);
        let length = |name| instance.length(name);
        let [y, z, w] = VECTORS.map(length);
        match self {
            Dimension => n > c,
            Overflow => l > usize::MAX as u128,
            ShortL => (length(Name::L) as u128) < l,
            ShortU => (length(Name::U) as u128) < u,
            UnequalWorkspaces => y != z || y != w,
            NoRoom => n == c,
            Row => call.row >= n,
            Column => call.column >= n,
            RowLength => length(Name::Row) != n,
            ColumnLength => length(Name::Column) != n,
            RightHandSideLength => length(Name::RightHandSide) != n,
            NonFiniteData => non_finite_place(call, instance).is_some(),
            ShortWorkspaces => (y.min(z).min(w) as u128) < call.function.workspace_length(n),
            Diagonal => bad_diagonal(instance).is_some(),
        }
    }

    /// The number that is returned. For a diagonal it depends on the entry.
    fn numbers(self) -> &'static [u32] {
        match self {
            Dimension => &[1],
            Overflow => &[2],
            ShortL => &[3],
            ShortU => &[13],
            UnequalWorkspaces => &[14],
            NoRoom => &[4],
            Row => &[5],
            Column => &[6],
            RowLength | ColumnLength | RightHandSideLength => &[7],
            NonFiniteData => &[NON_FINITE_DATA],
            ShortWorkspaces => &[8],
            Diagonal => &[9, 10],
        }
    }
}

/// The first cause that holds.
pub fn first_cause(call: &Call, instance: &Instance) -> Option<Cause> {
    let causes = call.function.causes();
    causes.into_iter().find(|cause| cause.holds(call, instance))
}

/// 0, or the number of the first refusal that holds.
pub fn number(call: &Call, instance: &Instance) -> u32 {
    match first_cause(call, instance) {
        None => 0,
        Some(Diagonal) => bad_diagonal(instance).map_or(0, |(_, number)| number),
        Some(cause) => cause.numbers()[0],
    }
}

/// The index that a number comes with.
pub fn index(number: u32, call: &Call, instance: &Instance) -> Option<usize> {
    match number {
        9 | 10 => bad_diagonal(instance).map(|(index, _)| index),
        NON_FINITE_DATA => non_finite_place(call, instance),
        _ => None,
    }
}

/// The number by which the Rust's error is known: it has one name, InsufficientStorage,
/// for 3, 13 and 14.
pub fn published_number(number: u32) -> u32 {
    match number {
        13 | 14 => 3,
        _ => number,
    }
}

/// The lengths of L and U that a capacity asks for.
pub fn lengths(c: usize) -> (u128, u128) {
    let l = c as u128 * (c as u128 + 1);
    (l, l / 2)
}

/// The first place with an infinity or a NaN, counted from 0 through the row, then the
/// column, then the diagonal that the call lends.
pub fn non_finite_place(call: &Call, instance: &Instance) -> Option<usize> {
    let mut values = call.data(instance).into_iter().flatten();
    values.position(|value| !value.is_finite())
}

/// The first active diagonal entry of U that is zero, infinite or NaN: its index,
/// and the number that it calls for. In short storage the entries that are there
/// are looked at.
pub fn bad_diagonal(instance: &Instance) -> Option<(usize, u32)> {
    let Instance { n, c, buffers, .. } = instance;
    let u = buffers[Name::U].slice();
    diagonal(*c, *n.min(c))
        .map_while(|place| u.get(place))
        .enumerate()
        .find_map(|(index, &entry)| match entry {
            _ if entry == 0.0 => Some((index, 9)),
            _ if !entry.is_finite() => Some((index, 10)),
            _ => None,
        })
}

/// Where the active entries are infinite or NaN, in storage that has passed its tests.
pub fn non_finite_entries(instance: &Instance) -> Vec<(Name, usize)> {
    let Instance { n, c, buffers, .. } = instance;
    let finite = |(name, place): (Name, usize)| buffers[name].slice()[place].is_finite();
    let entries = active(*c, *n);
    entries.filter(|&entry| !finite(entry)).collect()
}

/// Document 02's rule: no diagonal is refused and every active entry is finite.
pub fn is_ready(instance: &Instance) -> bool {
    bad_diagonal(instance).is_none() && non_finite_entries(instance).is_empty()
}
