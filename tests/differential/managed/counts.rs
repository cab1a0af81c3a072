//! What a run of managed calls has made and reached.

use std::collections::BTreeMap;
use std::fmt;

use super::call::{Call, Function, Instance, FUNCTIONS};
use super::expected::Expected;
use super::paths::{all_paths, NAN_GUARDS, READY};

#[derive(Default)]
pub struct Counts {
    /// By function, and by the number returned.
    answers: [[u64; 24]; FUNCTIONS.len()],
    /// By function and path.
    paths: [BTreeMap<&'static str, u64>; FUNCTIONS.len()],
    at_4: u64,
    at_16: u64,
    not_finite: u64,
}

impl Counts {
    pub fn add(
        &mut self,
        call: &Call,
        before: &Instance,
        expected: &Expected,
        paths: Vec<&'static str>,
    ) {
        let function = call.function as usize;
        let number = expected.answer.number;
        self.answers[function][number as usize] += 1;
        for path in paths {
            *self.paths[function].entry(path).or_default() += 1;
        }
        if number != 0 {
            return;
        }
        self.at_4 += u64::from(before.n >= 4);
        self.at_16 += u64::from(before.n >= 16);
        self.not_finite += u64::from(expected.buffers.has_result_not_finite());
    }

    /// The answers and paths that have not occurred, the guards that have met a NaN less
    /// often than once in a hundred of all calls, and what ready has answered, by one part
    /// of the factors, less often than once in a thousand.
    pub fn unreached(&self, calls: u64) -> Vec<String> {
        let mut unreached = Vec::new();
        for function in FUNCTIONS {
            let answers = self.answers(function).into_iter();
            let answers = answers.map(|(number, count)| (format!("answer {number}"), count));
            let missing = answers.chain(self.paths(function));
            let missing = missing.filter(|(_, count)| *count == 0);
            unreached.extend(missing.map(|(what, _)| format!("{}, {what}", function.text())));
        }
        let least = calls / 100;
        let nans = self.nans().into_iter();
        let few = nans.filter(|(_, count)| *count < least);
        unreached.extend(few.map(|(guard, _)| format!("{least} NaNs at {guard} guard")));
        let least = calls / 1000;
        let ready = self.paths(Function::Ready).into_iter().take(READY.len());
        let few = ready.filter(|(_, count)| *count < least);
        unreached.extend(few.map(|(path, _)| format!("{least} times {path}")));
        unreached
    }

    /// How many NaNs each guard has met, in all functions.
    fn nans(&self) -> [(String, u64); NAN_GUARDS.len()] {
        let count = |path: &&str| -> u64 {
            let counts = self.paths.iter().filter_map(|counts| counts.get(path));
            counts.sum()
        };
        NAN_GUARDS.map(|(guard, paths)| (guard.to_string(), paths.iter().map(count).sum()))
    }

    fn answers(&self, function: Function) -> Vec<(String, u64)> {
        let counts = &self.answers[function as usize];
        let numbers = function.numbers().into_iter();
        numbers
            .map(|number| (number.to_string(), counts[number as usize]))
            .collect()
    }

    fn paths(&self, function: Function) -> Vec<(String, u64)> {
        let counts = &self.paths[function as usize];
        let paths = all_paths(function).into_iter();
        paths
            .map(|path| (path.to_string(), counts.get(path).copied().unwrap_or(0)))
            .collect()
    }
}

/// Counts in a line, each with what it counts.
pub fn join(counts: Vec<(String, u64)>) -> String {
    let counts = counts
        .iter()
        .map(|(what, count)| format!("{what}: {count}"));
    counts.collect::<Vec<_>>().join(", ")
}

impl fmt::Display for Counts {
    fn fmt(&self, f: &mut fmt::Formatter) -> fmt::Result {
        for function in FUNCTIONS {
            let answers = join(self.answers(function));
            writeln!(f, "{} by answer: {answers}", function.text())?;
            let paths = self.paths(function);
            if !paths.is_empty() {
                writeln!(f, "    by path: {}", join(paths))?;
            }
        }
        let nans = join(self.nans().to_vec());
        writeln!(f, "NaNs that met a guard: {nans}")?;
        let accepted: u64 = self.answers.iter().map(|answers| answers[0]).sum();
        write!(
            f,
            "of {accepted} accepted: {} at n >= 4, {} at n >= 16, \
             {} with an infinity or NaN in the result",
            self.at_4, self.at_16, self.not_finite
        )
    }
}
