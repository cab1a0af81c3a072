//! Calls on cards made in the archive, each compared with what is expected. The Rust has no
//! such calls: they are compared with the driver's own writer and reader.

use super::call::{call_archive, Answer, Function, Lent, Made, Outputs};
use super::counts::Counts;
use super::expected::Expected;
use super::faults::{plant, Fault};
use crate::buffers::Name;
use crate::calls::{describe, Calls, End};
use crate::plant::Planter;
use crate::random::Random;

pub struct Comparison {
    pub counts: Counts,
    pub calls: Calls,
    planter: Planter<Fault>,
}

impl Comparison {
    pub fn new(calls: Calls, planter: Planter<Fault>) -> Self {
        Self {
            counts: Counts::default(),
            calls,
            planter,
        }
    }

    /// Makes a call. Gives what the archive answered.
    pub fn call(
        &mut self,
        function: Function,
        lent: &mut Lent,
        random: &mut Random,
    ) -> Result<Answer, End> {
        self.calls.count()?;
        let outputs = Outputs::any(random);
        let before = lent.clone();
        let mut expected = Expected::new(function, &before, outputs);
        self.counts.add(function, &before, &expected);
        let found = call_archive(function, lent, outputs);
        let (planter, made) = (&mut self.planter, self.calls.made);
        plant(planter, made, function, &before, outputs, &mut expected);
        if let Some(what) = difference(&expected, found, lent) {
            return Err(self.report(function, &before, &what));
        }
        if self.planter.planted {
            return Err(End::PlantedNotFound);
        }
        Ok(found)
    }

    pub fn report(&self, function: Function, before: &Lent, what: &str) -> End {
        let lent: &[Name] = match function {
            Function::CardLength => &[],
            _ => &[Name::L, Name::U],
        };
        let buffers = &before.instance.buffers;
        self.calls
            .report(what, &Made(function, before), lent, buffers)
    }
}

fn difference(expected: &Expected, found: Answer, left: &Lent) -> Option<String> {
    if let Some(what) = found.difference(&expected.answer) {
        return Some(format!("the archive answered {what}"));
    }
    if let Some(what) = left.card.difference(&expected.card) {
        return Some(format!("the archive {what}"));
    }
    let difference = expected.buffers.compare(&left.instance.buffers)?;
    Some(describe("the archive", &difference))
}
