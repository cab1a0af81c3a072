//! The numbered calls of a run, how a run ends, and what it prints of a difference.

use std::fmt::Display;

use crate::buffers::{Buffers, Name};
use crate::expectation::Difference;

/// Why a run ends.
pub enum End {
    AllMade,
    Differs,
    PlantedNotFound,
    NotReached,
}

pub struct Calls {
    pub made: u64,
    wanted: u64,
    seed: u64,
    /// No fewer calls are asked for to make one of them again.
    least: u64,
}

impl Calls {
    pub fn new(wanted: u64, seed: u64) -> Self {
        Self {
            made: 0,
            wanted,
            seed,
            least: 0,
        }
    }

    /// For calls before the lists of a run of so many: the number decides which calls they are.
    pub fn of_run(self, calls: u64) -> Self {
        Self {
            least: calls,
            ..self
        }
    }

    /// Counts a call that is about to be made.
    pub fn count(&mut self) -> Result<(), End> {
        if self.made == self.wanted {
            return Err(End::AllMade);
        }
        self.made += 1;
        Ok(())
    }

    /// Prints what differs, and all that is needed to make the call again.
    pub fn report(&self, what: &str, call: &dyn Display, lent: &[Name], before: &Buffers) -> End {
        println!("difference at call {}: {what}", self.made);
        let calls = self.made.max(self.least);
        println!("replay: tests/differential/run {calls} {}", self.seed);
        println!("{call}");
        for &name in lent {
            let buffer = &before[name];
            print!("{} before the call, length {}:", name.text(), buffer.len());
            for value in buffer.slice() {
                print!(" {:016x}", value.to_bits());
            }
            println!();
        }
        End::Differs
    }
}

pub fn describe(side: &str, difference: &Difference) -> String {
    let Difference {
        name,
        place,
        found,
        expected,
    } = difference;
    format!(
        "{side} left {found:016x} ({:e}) in {}[{place}], expected {expected:016x} ({:e})",
        f64::from_bits(*found),
        name.text(),
        f64::from_bits(*expected)
    )
}
