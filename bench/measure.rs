//! The time of a call on both sides.

use std::time::{Duration, Instant};

use crate::batch::Batch;
use crate::inputs::{Call, Case, Inputs};
use crate::sides::{run, First, Second};

/// No batch is shorter than this, on either side.
const BATCH: Duration = Duration::from_micros(20);
/// Batches of a call at one dimension are made for so long, but not in fewer rounds.
const TIME: Duration = Duration::from_millis(1200);
const ROUNDS: usize = 10;

#[cfg(not(before))]
pub const NAMES: [&str; 2] = ["Rust", "archive"];
#[cfg(before)]
pub const NAMES: [&str; 2] = ["before", "after"];

type Run = fn(&Inputs, &Case, &mut Batch) -> Duration;
const SIDES: [Run; 2] = [
    |inputs, case, batch| run::<First>(inputs, case, batch),
    |inputs, case, batch| run::<Second>(inputs, case, batch),
];

/// The nanoseconds of one call on the two sides: the least of the batches of each
/// case, and the mean of the cases.
pub fn measure(inputs: &Inputs, call: Call) -> [f64; 2] {
    let cases = inputs.cases(call);
    let calls = batch_length(inputs, &cases);
    let mut batch = Batch::new(inputs, call, calls);
    let mut sums = [0.0; 2];
    for least in least_of_batches(inputs, &cases, &mut batch) {
        for side in 0..2 {
            sums[side] += least[side].as_nanos() as f64;
        }
    }
    sums.map(|sum| sum / (cases.len() * calls) as f64)
}

/// How many calls a batch needs. The least of a few batches is not long by chance.
fn batch_length(inputs: &Inputs, cases: &[Case]) -> usize {
    let mut calls = 1;
    loop {
        let mut batch = Batch::new(inputs, cases[0].call, calls);
        let mut least = Duration::MAX;
        for (case, side) in cases.iter().flat_map(|case| [(case, 0), (case, 1)]) {
            for _ in 0..5 {
                least = least.min(make_batch(inputs, case, side, &mut batch));
            }
        }
        if least >= BATCH {
            return calls;
        }
        calls *= 2;
    }
}

/// The least of the batches of each case, on each side.
fn least_of_batches(inputs: &Inputs, cases: &[Case], batch: &mut Batch) -> Vec<[Duration; 2]> {
    let mut least = vec![[Duration::MAX; 2]; cases.len()];
    let start = Instant::now();
    let mut round = 0;
    while round < ROUNDS || start.elapsed() < TIME {
        for (case, least) in cases.iter().zip(&mut least) {
            for side in [round % 2, 1 - round % 2] {
                least[side] = least[side].min(make_batch(inputs, case, side, batch));
            }
        }
        round += 1;
    }
    least
}

/// Both sides make their batches on the same memory, which is restored before.
fn make_batch(inputs: &Inputs, case: &Case, side: usize, batch: &mut Batch) -> Duration {
    batch.restore(inputs);
    SIDES[side](inputs, case, batch)
}
