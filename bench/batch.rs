//! The prepared copies that a batch of calls is made on.

use crate::inputs::{Call, Inputs};

/// Each update has storage of its own, each other call a right-hand side of its own on one
/// storage. The copies lie one after another, and the workspaces are for all.
pub struct Batch {
    pub l: Vec<f64>,
    pub u: Vec<f64>,
    pub rhs: Vec<f64>,
    pub workspaces: [Vec<f64>; 3],
}

impl Batch {
    pub fn new(inputs: &Inputs, call: Call, calls: usize) -> Self {
        let (storages, vectors) = if call.is_update() {
            (calls, 0)
        } else {
            (1, calls)
        };
        Self {
            l: inputs.l.repeat(storages),
            u: inputs.u.repeat(storages),
            rhs: inputs.rhs.repeat(vectors),
            workspaces: [(); 3].map(|()| vec![0.0; inputs.n + 1]),
        }
    }

    /// Puts back what the calls have changed: right-hand sides, or else the active entries.
    pub fn restore(&mut self, inputs: &Inputs) {
        for rhs in self.rhs.chunks_exact_mut(inputs.n) {
            rhs.copy_from_slice(&inputs.rhs);
        }
        if self.rhs.is_empty() {
            self.restore_factors(inputs);
        }
    }

    fn restore_factors(&mut self, inputs: &Inputs) {
        for l in self.l.chunks_exact_mut(inputs.l.len()) {
            for row in inputs.l_rows(inputs.n) {
                l[row.clone()].copy_from_slice(&inputs.l[row]);
            }
        }
        for u in self.u.chunks_exact_mut(inputs.u.len()) {
            for row in inputs.u_rows(inputs.n) {
                u[row.clone()].copy_from_slice(&inputs.u[row]);
            }
        }
    }
}
