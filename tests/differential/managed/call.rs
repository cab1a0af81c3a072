//! A managed call, and the instance that it is made on.

use std::fmt;
use std::slice::{from_mut, from_ref};

use super::counter;
use crate::buffers::{surplus, Buffer, Buffers, Name, VECTORS};
use crate::data::{make_finite, Profile};
use crate::random::Random;

#[derive(Clone, Copy, PartialEq)]
pub enum Function {
    StorageLengths,
    FromStorage,
    Push,
    ReplaceRow,
    ReplaceColumn,
    Remove,
    Solve,
    SolveTranspose,
    Ready,
}

use Function::*;

pub const FUNCTIONS: [Function; 9] = [
    StorageLengths,
    FromStorage,
    Push,
    ReplaceRow,
    ReplaceColumn,
    Remove,
    Solve,
    SolveTranspose,
    Ready,
];

/// The buffers that hold the data of a call.
pub const DATA: [Name; 3] = [Name::Row, Name::Column, Name::RightHandSide];

impl Function {
    pub fn text(self) -> &'static str {
        [
            "storage_lengths",
            "from_storage",
            "push",
            "replace_row",
            "replace_column",
            "remove",
            "solve",
            "solve_transpose",
            "ready",
        ][self as usize]
    }

    /// The buffers that the function is lent.
    pub fn lent(self) -> &'static [Name] {
        use Name::{Column, RightHandSide, Row, L, U, W, Y, Z};
        match self {
            StorageLengths => &[],
            FromStorage | Ready => &[L, U],
            Push => &[L, U, Y, Z, W, Row, Column],
            ReplaceRow => &[L, U, Y, Z, W, Row],
            ReplaceColumn => &[L, U, Y, Z, W, Column],
            Remove => &[L, U, Y, Z, W],
            Solve | SolveTranspose => &[L, U, RightHandSide],
        }
    }

    /// Those of a row, a column and a diagonal that the function takes into the factors, in
    /// the order in which their places are counted.
    pub fn data<T>(self, row: T, column: T, diagonal: T) -> Vec<T> {
        match self {
            Push => vec![row, column, diagonal],
            ReplaceRow => vec![row],
            ReplaceColumn => vec![column],
            _ => vec![],
        }
    }

    pub fn is_update(self) -> bool {
        matches!(self, Push | ReplaceRow | ReplaceColumn | Remove)
    }

    /// The dimension after an accepted call at dimension n.
    pub fn dimension_after(self, n: usize) -> usize {
        match self {
            Push => n + 1,
            Remove => n - 1,
            _ => n,
        }
    }
}

/// A call without what it is lent.
#[derive(Clone, Copy)]
pub struct Call {
    pub function: Function,
    pub row: usize,
    pub column: usize,
    pub diagonal: f64,
}

impl Call {
    /// Of a function that takes no index and no diagonal, or before it is given them.
    pub fn of(function: Function) -> Self {
        Self {
            function,
            row: 0,
            column: 0,
            diagonal: 0.0,
        }
    }

    /// The data that the call lends to the factors, part by part.
    pub fn data<'a>(&'a self, instance: &'a Instance) -> Vec<&'a [f64]> {
        let [row, column] = [Name::Row, Name::Column].map(|name| instance.buffers[name].slice());
        self.function.data(row, column, from_ref(&self.diagonal))
    }

    /// The same, to be written.
    pub fn data_mut<'a>(&'a mut self, instance: &'a mut Instance) -> Vec<&'a mut [f64]> {
        let function = self.function;
        let [row, column, diagonal] = self.parts_mut(instance);
        function.data(row, column, diagonal)
    }

    /// Finite values in place of the infinities and NaNs that an update would be refused for.
    pub fn make_data_finite(&mut self, instance: &mut Instance, random: &mut Random) {
        for part in self.parts_mut(instance) {
            make_finite(part, random);
        }
    }

    /// A row, a column and a diagonal, whether the function takes them or not.
    fn parts_mut<'a>(&'a mut self, instance: &'a mut Instance) -> [&'a mut [f64]; 3] {
        let [.., row, column, _] = instance.buffers.slices_mut();
        [row, column, from_mut(&mut self.diagonal)]
    }
}

/// A dimension, a capacity and a counter, with all that is lent to their calls.
/// The values of replace_row are in the buffer for a row, those of replace_column
/// in the one for a column. The Rust's instance has the driver's own counter.
#[derive(Clone)]
pub struct Instance {
    pub n: usize,
    pub c: usize,
    pub counter: usize,
    pub buffers: Buffers,
}

impl Instance {
    /// Unused contents, in storage that is sometimes longer than the capacity asks for.
    pub fn new(n: usize, c: usize, random: &mut Random) -> Self {
        let l = c * (c + 1) + surplus(random);
        let u = c * (c + 1) / 2 + surplus(random);
        let buffers = Buffers::new([l, u, 0, 0, 0], random);
        Self {
            n,
            c,
            counter: counter::start(random),
            buffers,
        }
    }

    /// A row, a column or a right-hand side.
    pub fn lend(&mut self, name: Name, length: usize, profile: Profile, random: &mut Random) {
        let values: Vec<_> = (0..length).map(|_| profile.value(random)).collect();
        self.buffers[name] = Buffer::holding(&values, random);
    }

    /// New workspaces, with contents that no call may read.
    pub fn lend_workspaces(&mut self, length: usize, random: &mut Random) {
        for name in VECTORS {
            self.buffers[name] = Buffer::new(length, random);
        }
    }

    pub fn length(&self, name: Name) -> usize {
        self.buffers[name].len()
    }
}

/// A call with the instance that it is made on, for a report.
pub struct Made<'a>(pub &'a Call, pub &'a Instance);

impl fmt::Display for Made<'_> {
    fn fmt(&self, f: &mut fmt::Formatter) -> fmt::Result {
        let Self(call, instance) = self;
        let Call {
            function,
            row,
            column,
            diagonal,
        } = call;
        let Instance { n, c, counter, .. } = instance;
        write!(f, "{} n {n} c {c}", function.text())?;
        if function.is_update() {
            write!(f, " counter {counter}")?;
        }
        match function {
            Push => write!(f, " diagonal {:016x}", diagonal.to_bits()),
            ReplaceRow => write!(f, " row {row}"),
            ReplaceColumn => write!(f, " column {column}"),
            Remove => write!(f, " row {row} column {column}"),
            _ => Ok(()),
        }
    }
}
