//! Managed calls made on instances of the archive and on one of the Rust, each
//! compared with what is expected. A call whose data document 02 refuses is not made
//! in the Rust, which would take them.

use super::answer::{Answer, Outputs};
use super::archive::call_archive;
use super::call::{Call, Instance, Made};
use super::counter::allowed;
use super::counts::Counts;
use super::expected::Expected;
use super::faults::{plant, plant_in_copy, Fault};
use super::paths::{counter_paths, data_paths, ready_path};
use super::plain::Plain;
use super::published::call_rust;
use super::refusals::NON_FINITE_DATA;
use crate::calls::{describe, Calls, End};
use crate::plant::Planter;
use crate::random::Random;

/// Instances with one dimension, one counter, and the same active entries and
/// data. They may differ in capacity, in lengths, and in everything that is not
/// active.
pub struct Sides {
    pub rust: Instance,
    pub archive: Vec<Instance>,
}

impl Sides {
    /// One instance of the archive, and a copy of it for the Rust.
    pub fn alone(instance: Instance) -> Self {
        Self {
            rust: instance.clone(),
            archive: vec![instance],
        }
    }
}

pub struct Comparison {
    pub counts: Counts,
    pub calls: Calls,
    planter: Planter<Fault>,
}

impl Comparison {
    pub fn new(calls: Calls, planter: Planter<Fault>) -> Self {
        Self {
            counts: Counts::default(),
            calls,
            planter,
        }
    }

    /// Makes a call on every instance.
    pub fn call(&mut self, call: &Call, sides: &mut Sides, random: &mut Random) -> Result<(), End> {
        self.answer(call, sides, random).map(drop)
    }

    /// The same. Gives what the archive answered, in every instance.
    pub fn answer(
        &mut self,
        call: &Call,
        sides: &mut Sides,
        random: &mut Random,
    ) -> Result<Answer, End> {
        self.calls.count()?;
        let outputs = Outputs::any(random);
        let Sides { rust, archive } = sides;
        let before = rust.clone();
        let Some(published) = reference_answer(call, rust, outputs) else {
            return Err(self.report(call, &before, "the Rust panicked"));
        };
        let answer = published.finer(call, &before);
        let expected = Expected::new(call, &before, answer, rust);
        for instance in archive.iter().chain([&before]) {
            self.check_document(call, instance, outputs, answer, published)?;
        }
        self.check(call, &before, &expected, ("the Rust", answer, rust))?;
        let answer = self.count(call, &before, &expected)?;
        rust.counter = answer.outputs.counter;
        self.call_instances(call, sides, outputs, answer)
    }

    /// Makes a call on the archive's instances, after the Rust. `answer` is expected.
    fn call_instances(
        &mut self,
        call: &Call,
        sides: &mut Sides,
        outputs: Outputs,
        answer: Answer,
    ) -> Result<Answer, End> {
        let Sides { rust, archive } = sides;
        let last = archive.len() - 1;
        let mut answered = answer;
        for (k, instance) in archive.iter_mut().enumerate() {
            let before = instance.clone();
            let found = call_archive(call, instance, outputs);
            let mut expected = Expected::new(call, &before, answer, rust);
            if k == last {
                let (planter, made) = (&mut self.planter, self.calls.made);
                plant(planter, made, call, &before, outputs, &mut expected);
            }
            let side = ["the archive", "the archive's second instance"][k];
            self.check(call, &before, &expected, (side, found, instance))?;
            answered = found;
        }
        if self.planter.planted {
            return Err(End::PlantedNotFound);
        }
        Ok(answered)
    }

    /// Counts a call with its paths. Gives the Rust's answer with the driver's own
    /// count of pair steps, which the Rust does not have.
    fn count(
        &mut self,
        call: &Call,
        before: &Instance,
        expected: &Expected,
    ) -> Result<Answer, End> {
        let (mut answer, mut paths, mut steps) = (expected.answer, vec![], 0);
        if call.function.is_update() {
            if answer.number == 0 {
                Plain { steps, paths, .. } = self.update_plain(call, before, expected)?;
            }
            answer = answer.counted(before, steps);
            paths.extend(counter_paths(call, before, &answer));
            paths.extend(data_paths(call, before, &answer));
        }
        paths.extend(ready_path(call, before, &answer));
        self.counts.add(call, before, expected, paths);
        Ok(answer)
    }

    /// An accepted update by the plain copy, which must leave what the Rust leaves, in
    /// no more pair steps than are allowed.
    fn update_plain(
        &mut self,
        call: &Call,
        before: &Instance,
        expected: &Expected,
    ) -> Result<Plain, End> {
        let plain = Plain::updated(call, before);
        let mut left = before.clone();
        plain.write(&mut left);
        let (planter, made) = (&mut self.planter, self.calls.made);
        plant_in_copy(planter, made, call, before, expected, &mut left);
        let mut answer = expected.answer;
        answer.outputs.n = left.n;
        let side = "the plain copy of document 01's steps";
        self.check(call, before, expected, (side, answer, &left))?;
        let (steps, allowed) = (plain.steps, allowed(call, before.n));
        if steps > allowed {
            let what = format!("{side} made {steps} pair steps, expected at most {allowed}");
            return Err(self.report(call, before, &what));
        }
        Ok(plain)
    }

    /// What is expected must be the documents' answer in every instance, and the Rust's
    /// answer must be that with 3, 13 and 14 taken together.
    fn check_document(
        &self,
        call: &Call,
        before: &Instance,
        outputs: Outputs,
        answer: Answer,
        published: Answer,
    ) -> Result<(), End> {
        let document = Answer::of_document(call, before, outputs);
        let differs = [
            (published, document.published(), "the Rust answered"),
            (answer, document, "another instance is to answer"),
        ];
        for (found, expected, what) in differs {
            if let Some(difference) = found.difference(&expected) {
                let what = format!("{what} {difference} by the documents");
                return Err(self.report(call, before, &what));
            }
        }
        Ok(())
    }

    fn check(
        &self,
        call: &Call,
        before: &Instance,
        expected: &Expected,
        (side, answer, left): (&str, Answer, &Instance),
    ) -> Result<(), End> {
        if let Some(what) = answer.difference(&expected.answer) {
            let what = format!("{side} answered {what}");
            return Err(self.report(call, before, &what));
        }
        match expected.buffers.compare(&left.buffers) {
            Some(difference) => Err(self.report(call, before, &describe(side, &difference))),
            None => Ok(()),
        }
    }

    fn report(&self, call: &Call, before: &Instance, what: &str) -> End {
        let lent = call.function.lent();
        self.calls
            .report(what, &Made(call, before), lent, &before.buffers)
    }
}

/// Makes the call in the Rust and gives its answer. Where the data are refused, makes no
/// call and gives the documents' answer. None: the Rust panicked.
fn reference_answer(call: &Call, rust: &mut Instance, outputs: Outputs) -> Option<Answer> {
    let document = Answer::of_document(call, rust, outputs);
    if document.number == NON_FINITE_DATA {
        return Some(document);
    }
    call_rust(call, rust, outputs)
}
