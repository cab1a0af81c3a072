//! A plain copy of document 01's steps, with E and T of the managed interface:
//! a dimension, a table and a triangle, without capacity or storage. It counts
//! its pair steps and notes the paths that it takes.

use super::call::{Call, Function, Instance};
use super::pair::{Outcome, PairStep};
use super::paths::{position, BACKWARD, FIRST_FORWARD, FORWARD, LAST_BACKWARD, TRIMMING, WITH_NAN};
use crate::buffers::Name;
use crate::data::MANAGED;
use crate::places::{active, l_place, u_place};

/// What stands where document 01 has no entry.
const NOTHING: f64 = f64::NAN;

pub struct Plain {
    n: usize,
    l: Vec<Vec<f64>>,
    /// Nothing stands below the diagonal.
    u: Vec<Vec<f64>>,
    /// How many pair steps it has made.
    pub steps: usize,
    /// The paths that it has taken, some more than once.
    pub paths: Vec<&'static str>,
}

impl Plain {
    /// Makes an accepted update on the active factors of an instance.
    pub fn updated(call: &Call, before: &Instance) -> Self {
        let mut plain = Self::of(before);
        plain.paths = position(call, before.n);
        let [row, column] = [Name::Row, Name::Column].map(|name| before.buffers[name].slice());
        match call.function {
            Function::Push => plain.push(row, column, call.diagonal),
            Function::ReplaceRow => plain.replace_row(call.row, row),
            Function::ReplaceColumn => plain.replace_column(call.column, column),
            _ => plain.remove(call.row, call.column),
        }
        plain
    }

    fn of(instance: &Instance) -> Self {
        let Instance { n, c, .. } = *instance;
        let [l, u] = [Name::L, Name::U].map(|name| instance.buffers[name].slice());
        let l_row = |i| (0..n).map(move |j| l[l_place(c, i, j)]);
        let u_row = |i| (i..n).map(move |j| u[u_place(c, i, j)]);
        let nothing = |i| std::iter::repeat(NOTHING).take(i);
        Self {
            n,
            l: (0..n).map(|i| l_row(i).collect()).collect(),
            u: (0..n)
                .map(|i| nothing(i).chain(u_row(i)).collect())
                .collect(),
            steps: 0,
            paths: vec![],
        }
    }

    /// Writes the dimension and the factors to an instance.
    pub fn write(&self, to: &mut Instance) {
        to.n = self.n;
        let rows = self.l.iter().zip(&self.u).enumerate();
        let values = rows.flat_map(|(i, (l, u))| l.iter().chain(&u[i..]));
        for ((name, place), &value) in active(to.c, self.n).zip(values) {
            to.buffers[name].slice_mut()[place] = value;
        }
    }

    fn push(&mut self, row: &[f64], column: &[f64], diagonal: f64) {
        let product = self.l_product(column);
        self.grow();
        let last = self.n - 1;
        self.set_u_column(last, &product);
        self.l[last][last] = 1.0;
        self.forward(0, last, self.n, [row, &[diagonal]].concat());
    }

    /// Zeros in a new last row and column of L, and nothing in those of U.
    fn grow(&mut self) {
        self.n += 1;
        for (table, entry) in [(&mut self.l, 0.0), (&mut self.u, NOTHING)] {
            table.push(vec![]);
            table.iter_mut().for_each(|row| row.resize(self.n, entry));
        }
    }

    fn replace_row(&mut self, r: usize, values: &[f64]) {
        if self.n == 1 {
            (self.l[0][0], self.u[0][0]) = (1.0, values[0]);
            return;
        }
        let mut w = column(&self.l, r);
        self.l.iter_mut().for_each(|row| row[r] = 0.0);
        let selected = self.trim(0, &w);
        self.backward(0, selected, self.n, &mut w, &BACKWARD);
        self.l[selected].fill(0.0);
        self.l[selected][r] = 1.0;
        self.forward(0, selected, self.n, values.to_vec());
    }

    fn replace_column(&mut self, k: usize, values: &[f64]) {
        let w = self.l_product(values);
        self.set_u_column(k, &w[..=k]);
        if k + 1 < self.n {
            self.restore(k, self.n, w);
        }
    }

    fn remove(&mut self, r: usize, k: usize) {
        let p = self.n - 1;
        if k < p {
            let w = column(&self.u, p);
            self.set_u_column(k, &w[..=k]);
            self.restore(k, p, w);
        }
        let mut w = column(&self.l, r);
        self.l.iter_mut().for_each(|row| row[r] = row[p]);
        self.backward(0, p, p, &mut w, &LAST_BACKWARD);
        self.shrink();
    }

    /// Drops the last row and column of L and U.
    fn shrink(&mut self) {
        self.n -= 1;
        for table in [&mut self.l, &mut self.u] {
            table.pop();
            table.iter_mut().for_each(|row| row.truncate(self.n));
        }
    }

    /// After column k of U has taken w down to the diagonal: Backward on w, and
    /// Forward on what it gives.
    fn restore(&mut self, k: usize, columns: usize, mut w: Vec<f64>) {
        let selected = self.trim(k + 1, &w);
        let mut y = self.backward(k + 1, selected, columns, &mut w, &BACKWARD);
        y[k] = w[selected];
        self.forward(k, selected, columns, y);
    }

    fn l_product(&self, v: &[f64]) -> Vec<f64> {
        let entry = |row: &Vec<f64>| row.iter().zip(v).fold(0.0, |sum, (l, v)| sum + l * v);
        self.l.iter().map(entry).collect()
    }

    fn set_u_column(&mut self, k: usize, values: &[f64]) {
        for (row, &value) in self.u.iter_mut().zip(values) {
            row[k] = value;
        }
    }

    fn forward(&mut self, first: usize, last: usize, columns: usize, mut y: Vec<f64>) {
        for row in first..last {
            let pair = [y[row], self.u[row][row]];
            let outcome = self.forward_pair(row, last, &mut y[..columns]);
            self.note(pair, outcome, &FORWARD);
            if row == first {
                self.paths.push(FIRST_FORWARD[outcome as usize]);
            }
        }
        self.u[last][last..columns].copy_from_slice(&y[last..columns]);
    }

    fn forward_pair(&mut self, row: usize, last: usize, y: &mut [f64]) -> Outcome {
        let (_, u) = self.u[row][..y.len()].split_at_mut(row);
        let (_, y) = y.split_at_mut(row);
        if y[0].abs() > MANAGED.e * u[0].abs() {
            let step = PairStep::on(&mut u[0], &mut y[0]);
            step.apply(&mut u[1..], &mut y[1..]);
            let (above, below) = self.l.split_at_mut(last);
            step.apply(&mut above[row], &mut below[0]);
            return step.outcome;
        }
        Outcome::Skipped
    }

    /// The selected row after the trimming of a Backward that starts with the last.
    fn trim(&mut self, first: usize, v: &[f64]) -> usize {
        let mut selected = self.n - 1;
        while selected > first && v[selected].abs() <= MANAGED.e {
            selected -= 1;
        }
        let trims = selected < self.n - 1;
        self.paths.push(TRIMMING[usize::from(trims)]);
        if selected > first && v[selected].is_nan() {
            self.paths.push(TRIMMING[2]);
        }
        selected
    }

    /// Backward after its trimming. Gives dense.
    fn backward(
        &mut self,
        first: usize,
        selected: usize,
        columns: usize,
        v: &mut [f64],
        paths: &[&'static str],
    ) -> Vec<f64> {
        let mut dense = vec![NOTHING; columns];
        dense[selected..].copy_from_slice(&self.u[selected][selected..columns]);
        for row in (first..selected).rev() {
            dense[row] = 0.0;
            let pair = [v[row], v[selected]];
            let outcome = self.backward_pair(row, selected, &mut dense[row..], v);
            self.note(pair, outcome, paths);
        }
        dense
    }

    /// `dense` starts with its entry of the row.
    fn backward_pair(
        &mut self,
        row: usize,
        selected: usize,
        dense: &mut [f64],
        v: &mut [f64],
    ) -> Outcome {
        let (above, below) = v.split_at_mut(selected);
        let (pivot, other) = (&mut below[0], &mut above[row]);
        if other.abs() <= MANAGED.e * pivot.abs() {
            return Outcome::Skipped;
        }
        let step = PairStep::on(pivot, other);
        step.apply(dense, &mut self.u[row][row..row + dense.len()]);
        let (above, below) = self.l.split_at_mut(selected);
        step.apply(&mut below[0], &mut above[row]);
        step.outcome
    }

    /// Counts a pair, if there was a pair step, with the paths that it took. `pair` is what
    /// the guard met.
    fn note(&mut self, pair: [f64; 2], outcome: Outcome, paths: &[&'static str]) {
        self.steps += match outcome {
            Outcome::Skipped => 0,
            Outcome::Cleared | Outcome::Eliminated | Outcome::Exchanged => 1,
        };
        self.paths.push(paths[outcome as usize]);
        if pair.iter().any(|value| value.is_nan()) {
            self.paths.push(paths[WITH_NAN]);
        }
    }
}

fn column(table: &[Vec<f64>], k: usize) -> Vec<f64> {
    table.iter().map(|row| row[k]).collect()
}
