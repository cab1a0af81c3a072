//! What a run of calls on cards has made and reached.

use std::collections::BTreeMap;
use std::fmt;

use super::call::{Function, Lent, FUNCTIONS};
use super::expected::Expected;
use super::paths::{all_paths, paths};
use crate::managed::counts::join;

#[derive(Default)]
pub struct Counts {
    /// By function, and by the number returned.
    answers: [[u64; 24]; FUNCTIONS.len()],
    /// By function and path.
    paths: [BTreeMap<&'static str, u64>; FUNCTIONS.len()],
    /// How often a list has gone on from a card.
    pub resumed: u64,
    /// The managed calls of the lists.
    pub managed: u64,
}

impl Counts {
    pub fn add(&mut self, function: Function, before: &Lent, expected: &Expected) {
        self.answers[function as usize][expected.answer.number as usize] += 1;
        for path in paths(function, before, expected) {
            *self.paths[function as usize].entry(path).or_default() += 1;
        }
    }

    /// The answers and paths that have not occurred.
    pub fn unreached(&self) -> Vec<String> {
        let mut unreached = Vec::new();
        for function in FUNCTIONS {
            let answers = self.answers(function).into_iter();
            let answers = answers.map(|(number, count)| (format!("answer {number}"), count));
            let missing = answers.chain(self.paths(function));
            let missing = missing.filter(|(_, count)| *count == 0);
            unreached.extend(missing.map(|(what, _)| format!("{}, {what}", function.text())));
        }
        unreached
    }

    fn answers(&self, function: Function) -> Vec<(String, u64)> {
        let counts = &self.answers[function as usize];
        let refusals = function.causes().iter().map(|cause| cause.number());
        let numbers = std::iter::once(0).chain(refusals);
        numbers
            .map(|number| (number.to_string(), counts[number as usize]))
            .collect()
    }

    fn paths(&self, function: Function) -> Vec<(String, u64)> {
        let counts = &self.paths[function as usize];
        let paths = all_paths(function).into_iter();
        paths
            .map(|path| (path.to_string(), counts.get(path).copied().unwrap_or(0)))
            .collect()
    }
}

impl fmt::Display for Counts {
    fn fmt(&self, f: &mut fmt::Formatter) -> fmt::Result {
        for function in FUNCTIONS {
            let answers = join(self.answers(function));
            writeln!(f, "{} by answer: {answers}", function.text())?;
            let paths = self.paths(function);
            if !paths.is_empty() {
                writeln!(f, "    by path: {}", join(paths))?;
            }
        }
        let Self {
            resumed, managed, ..
        } = self;
        write!(
            f,
            "lists of {managed} managed calls went on from a card {resumed} times"
        )
    }
}
