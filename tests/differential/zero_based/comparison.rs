//! Calls made on both sides, each compared with what is expected.

use super::arguments::Arguments;
use super::counts::Counts;
use super::expected::Expected;
use super::faults::{plant, Fault};
use super::sides::{call_archive, call_rust};
use crate::buffers::Buffers;
use crate::calls::{describe, Calls, End};
use crate::plant::Planter;

pub struct Comparison {
    pub counts: Counts,
    calls: Calls,
    planter: Planter<Fault>,
}

impl Comparison {
    pub fn new(calls: Calls, planter: Planter<Fault>) -> Self {
        Self {
            counts: Counts::default(),
            calls,
            planter,
        }
    }

    /// Makes a call on two copies of the buffers. Gives what the archive left.
    pub fn call(&mut self, arguments: &Arguments, before: &Buffers) -> Result<Buffers, End> {
        self.calls.count()?;
        let number = arguments.number(before);
        let (mut rust, mut archive) = (before.clone(), before.clone());
        // With 12 the Rust may panic, so there it is not called.
        if number != 12 && !call_rust(arguments, &mut rust) {
            return Err(self.report(arguments, before, "the Rust panicked"));
        }
        let returned = call_archive(arguments, &mut archive);
        let mut expected = Expected::new(arguments, number, before.clone(), rust);
        self.counts.add(arguments, &expected);
        plant(&mut self.planter, self.calls.made, arguments, &mut expected);
        if let Some(what) = difference(&expected, returned, &archive) {
            return Err(self.report(arguments, before, &what));
        }
        if self.planter.planted {
            return Err(End::PlantedNotFound);
        }
        Ok(archive)
    }

    fn report(&self, arguments: &Arguments, before: &Buffers, what: &str) -> End {
        let lent = arguments.function.lent();
        self.calls.report(what, arguments, lent, before)
    }
}

fn difference(expected: &Expected, returned: u32, archive: &Buffers) -> Option<String> {
    if returned != expected.number {
        let expected = expected.number;
        return Some(format!("returned {returned}, expected {expected}"));
    }
    let sides = [
        ("the archive", archive),
        ("the Rust", &expected.buffers.rust),
    ];
    sides.into_iter().find_map(|(side, left)| {
        let difference = expected.buffers.compare(left)?;
        Some(describe(side, &difference))
    })
}
