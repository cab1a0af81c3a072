//! Document 01's pair step, with the tolerance T of the managed interface.

use std::mem::swap;

use crate::data::MANAGED;

/// What becomes of a pair.
#[derive(Clone, Copy)]
pub enum Outcome {
    /// A guard passes it over: there is no pair step.
    Skipped,
    /// Neither is larger than T.
    Cleared,
    Eliminated,
    Exchanged,
}

/// A pair step, to be applied to further pairs.
pub struct PairStep {
    pub outcome: Outcome,
    multiplier: f64,
}

impl PairStep {
    /// The pair step on x and y.
    pub fn on(x: &mut f64, y: &mut f64) -> Self {
        let keeps = x.abs() >= y.abs();
        let magnitude = if keeps { x.abs() } else { y.abs() };
        let (outcome, multiplier, pivot) = if magnitude <= MANAGED.t {
            (Outcome::Cleared, 0.0, 0.0)
        } else if keeps {
            (Outcome::Eliminated, -*y / *x, *x)
        } else {
            (Outcome::Exchanged, -*x / *y, *y)
        };
        (*x, *y) = (pivot, 0.0);
        Self {
            outcome,
            multiplier,
        }
    }

    /// Applies it to a pair at each place of two slices of one length.
    pub fn apply(&self, first: &mut [f64], second: &mut [f64]) {
        for (first, second) in first.iter_mut().zip(second) {
            if let Outcome::Exchanged = self.outcome {
                swap(first, second);
            }
            if self.multiplier != 0.0 {
                *second += self.multiplier * *first;
            }
        }
    }
}
