//! What the two sides have in common: the published Rust, or an earlier archive, and the archive.
//! What is timed is the calls alone: storage is adopted before.

use std::time::{Duration, Instant};

use rlumod::api::{ColumnIndex, LuMod, RowIndex, Workspace};

use crate::batch::Batch;
use crate::inputs::{Call, Case, Inputs};

#[cfg(not(before))]
pub type First<'a> = LuMod<'a, f64>;
#[cfg(before)]
pub type First<'a> = crate::before::archive::Storage<'a>;
pub type Second<'a> = crate::after::archive::Storage<'a>;

/// Factors of one side. A call is given its case, and gives whether it was carried out and
/// reported what it should.
pub trait Factors<'a>: Sized {
    type Workspace;

    fn adopt(n: usize, capacity: usize, l: &'a mut [f64], u: &'a mut [f64]) -> Self;
    fn workspace(y: &'a mut [f64], z: &'a mut [f64], w: &'a mut [f64]) -> Self::Workspace;
    fn push(&mut self, case: &Case, workspace: &mut Self::Workspace) -> bool;
    fn replace_row(&mut self, case: &Case, workspace: &mut Self::Workspace) -> bool;
    fn replace_column(&mut self, case: &Case, workspace: &mut Self::Workspace) -> bool;
    fn remove(&mut self, case: &Case, workspace: &mut Self::Workspace) -> bool;
    fn solve(&mut self, rhs: &mut [f64]) -> bool;
    fn solve_transpose(&mut self, rhs: &mut [f64]) -> bool;
    /// Whether the factors are ready. The right-hand side is for a side that has no such call.
    fn ready(&mut self, rhs: &mut [f64]) -> bool;
}

impl<'a> Factors<'a> for LuMod<'a, f64> {
    type Workspace = Workspace<'a, f64>;

    fn adopt(n: usize, capacity: usize, l: &'a mut [f64], u: &'a mut [f64]) -> Self {
        LuMod::from_storage(n, capacity, l, u).unwrap()
    }

    fn workspace(y: &'a mut [f64], z: &'a mut [f64], w: &'a mut [f64]) -> Self::Workspace {
        Workspace::new(y, z, w).unwrap()
    }

    fn push(&mut self, case: &Case, workspace: &mut Self::Workspace) -> bool {
        let Case {
            row_data,
            column_data,
            ..
        } = case;
        LuMod::push(self, row_data, column_data, case.diagonal, workspace).is_ok()
    }

    fn replace_row(&mut self, case: &Case, workspace: &mut Self::Workspace) -> bool {
        LuMod::replace_row(self, RowIndex(case.row), &case.row_data, workspace).is_ok()
    }

    fn replace_column(&mut self, case: &Case, workspace: &mut Self::Workspace) -> bool {
        let column = ColumnIndex(case.column);
        LuMod::replace_column(self, column, &case.column_data, workspace).is_ok()
    }

    fn remove(&mut self, case: &Case, workspace: &mut Self::Workspace) -> bool {
        let (row, column) = (RowIndex(case.row), ColumnIndex(case.column));
        LuMod::remove(self, row, column, workspace) == Ok(case.removal)
    }

    fn solve(&mut self, rhs: &mut [f64]) -> bool {
        self.solve_in_place(rhs).is_ok()
    }

    fn solve_transpose(&mut self, rhs: &mut [f64]) -> bool {
        self.solve_transpose_in_place(rhs).is_ok()
    }

    /// A solve of zeros gives zeros exactly where the factors are ready: a zero times an infinity
    /// or a NaN is a NaN.
    fn ready(&mut self, rhs: &mut [f64]) -> bool {
        rhs.fill(0.0);
        self.solve_in_place(rhs).is_ok() && rhs.iter().all(|&value| value == 0.0)
    }
}

/// Makes the pushes of the matrix on the first storage of the batch.
pub fn push_all<'a, F: Factors<'a>>(inputs: &Inputs, batch: &'a mut Batch) {
    let [y, z, w] = &mut batch.workspaces;
    let mut workspace = F::workspace(y, z, w);
    let mut factors = F::adopt(0, inputs.capacity, &mut batch.l, &mut batch.u);
    for m in 0..inputs.n {
        assert!(factors.push(&inputs.push(m), &mut workspace));
    }
}

/// Makes the calls of the batch, and gives the time of them all.
pub fn run<'a, F: Factors<'a>>(inputs: &Inputs, case: &Case, batch: &'a mut Batch) -> Duration {
    let [y, z, w] = &mut batch.workspaces;
    let mut workspace = F::workspace(y, z, w);
    let l = batch.l.chunks_exact_mut(inputs.l.len());
    let u = batch.u.chunks_exact_mut(inputs.u.len());
    let adopt = |(l, u)| F::adopt(inputs.n, inputs.capacity, l, u);
    let mut factors: Vec<F> = l.zip(u).map(adopt).collect();
    let rhs = batch.rhs.chunks_exact_mut(inputs.n);
    match case.call {
        Call::Push => time(&mut factors, |f| f.push(case, &mut workspace)),
        Call::ReplaceRow => time(&mut factors, |f| f.replace_row(case, &mut workspace)),
        Call::ReplaceColumn => time(&mut factors, |f| f.replace_column(case, &mut workspace)),
        Call::Remove => time(&mut factors, |f| f.remove(case, &mut workspace)),
        Call::Solve => time(rhs, |rhs| factors[0].solve(rhs)),
        Call::SolveTranspose => time(rhs, |rhs| factors[0].solve_transpose(rhs)),
        Call::Ready => time(rhs, |rhs| factors[0].ready(rhs)),
    }
}

fn time<T>(items: impl IntoIterator<Item = T>, mut call: impl FnMut(T) -> bool) -> Duration {
    let mut right = true;
    let start = Instant::now();
    for item in items {
        right &= call(item);
    }
    let elapsed = start.elapsed();
    assert!(right, "a call was refused, or reported what it should not");
    elapsed
}
