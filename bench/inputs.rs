//! The calls that are timed, and what they are given.

use std::ops::Range;

use rlumod::api::{storage_lengths, ColumnIndex, LuMod, Removal, RowIndex};

use crate::batch::Batch;
use crate::random::Random;
use crate::sides::push_all;

#[derive(Clone, Copy, PartialEq)]
pub enum Call {
    Push,
    ReplaceRow,
    ReplaceColumn,
    Remove,
    Solve,
    SolveTranspose,
    Ready,
}

pub const CALLS: [Call; 7] = [
    Call::Push,
    Call::ReplaceRow,
    Call::ReplaceColumn,
    Call::Remove,
    Call::Solve,
    Call::SolveTranspose,
    Call::Ready,
];

impl Call {
    pub fn name(self) -> &'static str {
        match self {
            Call::Push => "push",
            Call::ReplaceRow => "replace row",
            Call::ReplaceColumn => "replace column",
            Call::Remove => "remove",
            Call::Solve => "solve",
            Call::SolveTranspose => "transpose solve",
            Call::Ready => "ready",
        }
    }

    pub fn is_update(self) -> bool {
        !matches!(self, Call::Solve | Call::SolveTranspose | Call::Ready)
    }
}

/// How many indices a replacement or a removal is timed at.
const PLACES: usize = 5;

/// One call. It takes those of the indices and data that it needs.
pub struct Case {
    pub call: Call,
    pub row: usize,
    pub column: usize,
    pub row_data: Vec<f64>,
    pub column_data: Vec<f64>,
    pub diagonal: f64,
    /// What a removal must report.
    pub removal: Removal,
}

const NOTHING_MOVED: Removal = Removal {
    moved_row: None,
    moved_column: None,
};

/// A matrix, its factors, and the data of all calls at dimension n.
pub struct Inputs {
    pub n: usize,
    pub capacity: usize,
    pub l: Vec<f64>,
    pub u: Vec<f64>,
    pub rhs: Vec<f64>,
    /// By rows.
    matrix: Vec<f64>,
    row: Vec<f64>,
    column: Vec<f64>,
    diagonal: f64,
}

impl Inputs {
    pub fn new(n: usize, random: &mut Random) -> Self {
        let capacity = n + 8;
        let lengths = storage_lengths(capacity).expect("the capacity is small");
        let mut matrix = vector(n * n, random);
        for i in 0..n {
            matrix[i * n + partner(n, i)] += weight(n);
        }
        let mut inputs = Self {
            n,
            capacity,
            l: vec![0.0; lengths.l],
            u: vec![0.0; lengths.u],
            rhs: vector(n, random),
            matrix,
            row: vector(n, random),
            column: vector(n, random),
            diagonal: weight(n),
        };
        let mut batch = Batch::new(&inputs, Call::Push, 1);
        push_all::<LuMod<f64>>(&inputs, &mut batch);
        (inputs.l, inputs.u) = (batch.l, batch.u);
        inputs
    }

    /// The push that takes the matrix from dimension m to m + 1.
    pub fn push(&self, m: usize) -> Case {
        let n = self.n;
        Case {
            call: Call::Push,
            row: 0,
            column: 0,
            row_data: self.matrix[m * n..][..m].to_vec(),
            column_data: (0..m).map(|i| self.matrix[i * n + m]).collect(),
            diagonal: self.matrix[m * n + m],
            removal: NOTHING_MOVED,
        }
    }

    /// The cases of a call: replacements and removals at indices spread over the range.
    pub fn cases(&self, call: Call) -> Vec<Case> {
        let places = match call {
            Call::ReplaceRow | Call::ReplaceColumn | Call::Remove => PLACES,
            _ => 1,
        };
        (0..places).map(|k| self.case(call, k)).collect()
    }

    fn case(&self, call: Call, k: usize) -> Case {
        let place = |k| (2 * k + 1) * self.n / (2 * PLACES);
        let (row, column) = (place(k), place(2 * k % PLACES));
        let (mut row_data, mut column_data) = (self.row.clone(), self.column.clone());
        row_data[partner(self.n, row)] += weight(self.n);
        column_data[partner(self.n, column)] += weight(self.n);
        let last = self.n - 1;
        Case {
            call,
            row,
            column,
            row_data,
            column_data,
            diagonal: self.diagonal,
            removal: Removal {
                moved_row: (row != last).then_some(RowIndex(last)),
                moved_column: (column != last).then_some(ColumnIndex(last)),
            },
        }
    }

    /// Where the active entries of L at dimension m lie, row by row.
    pub fn l_rows(&self, m: usize) -> impl Iterator<Item = Range<usize>> {
        let capacity = self.capacity;
        (0..m).map(move |i| i * capacity..i * capacity + m)
    }

    /// The same for U.
    pub fn u_rows(&self, m: usize) -> impl Iterator<Item = Range<usize>> {
        let capacity = self.capacity;
        (0..m).map(move |i| {
            let start = i * (2 * capacity + 1 - i) / 2;
            start..start + m - i
        })
    }
}

/// Entries from -1 to 1.
fn vector(count: usize, random: &mut Random) -> Vec<f64> {
    (0..count).map(|_| 2.0 * random.unit() - 1.0).collect()
}

/// What is added to one entry of each row and column, so that the matrix is well-conditioned.
fn weight(n: usize) -> f64 {
    (n as f64).sqrt()
}

/// The column of that entry in row i, and its row in column i. It is not on the diagonal, so that
/// rows are exchanged.
fn partner(n: usize, i: usize) -> usize {
    n - 1 - i
}
