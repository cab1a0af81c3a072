//! What a run of zero-based calls has made.

use std::fmt;

use super::arguments::{Arguments, Function};
use super::expected::Expected;

#[derive(Default)]
pub struct Counts {
    /// Accepted calls of LUmod by mode, from 1 to 4.
    updates: [u64; 4],
    /// Accepted calls, plain and transposed.
    products: [u64; 2],
    solves: [u64; 2],
    passed_over: u64,
    too_small: u64,
    at_4: u64,
    at_16: u64,
    not_finite: u64,
}

impl Counts {
    pub fn add(&mut self, arguments: &Arguments, expected: &Expected) {
        match expected.number {
            0 => self.add_accepted(arguments, expected),
            11 => self.passed_over += 1,
            _ => self.too_small += 1,
        }
    }

    fn add_accepted(&mut self, arguments: &Arguments, expected: &Expected) {
        let transposed = usize::from(arguments.mode != 1);
        match arguments.function {
            Function::LUmod => self.updates[arguments.mode as usize - 1] += 1,
            Function::Lprod => self.products[transposed] += 1,
            Function::Usolve => self.solves[transposed] += 1,
        }
        self.at_4 += u64::from(arguments.n >= 4);
        self.at_16 += u64::from(arguments.n >= 16);
        self.not_finite += u64::from(expected.buffers.has_result_not_finite());
    }

    fn accepted(&self) -> u64 {
        let made = [&self.updates[..], &self.products, &self.solves];
        made.into_iter().flatten().sum()
    }
}

impl fmt::Display for Counts {
    fn fmt(&self, f: &mut fmt::Formatter) -> fmt::Result {
        let [push, column, row, remove] = self.updates;
        let [plain, transposed] = self.products;
        let [back, forward] = self.solves;
        writeln!(
            f,
            "accepted by mode: push {push}, replace column {column}, replace row {row}, \
             remove {remove}; product {plain}, transposed {transposed}; \
             solve {back}, transposed {forward}"
        )?;
        writeln!(
            f,
            "of {} accepted: {} at n >= 4, {} at n >= 16, {} with an infinity or NaN in the result",
            self.accepted(),
            self.at_4,
            self.at_16,
            self.not_finite
        )?;
        write!(
            f,
            "{} calls: LUmod {}, Lprod {}, Usolve {}; refused 11: {}, refused 12: {}",
            self.accepted() + self.passed_over + self.too_small,
            self.updates.iter().sum::<u64>(),
            plain + transposed,
            back + forward,
            self.passed_over,
            self.too_small
        )
    }
}
