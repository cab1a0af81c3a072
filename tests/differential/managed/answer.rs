//! What a managed call answers: a number, and what it writes to its other outputs.

use super::call::{Call, Function, Instance};
use super::counter;
use super::refusals::{index, is_ready, lengths, number, published_number};
use crate::random::Random;

/// All outputs that any call has besides its buffers, one beside the other. A
/// call is lent some of them and must leave the others as they were.
#[repr(C)]
#[derive(Clone, Copy, PartialEq)]
pub struct Outputs {
    pub n: usize,
    pub l: usize,
    pub u: usize,
    pub moved_row: usize,
    pub moved_column: usize,
    pub index: usize,
    pub counter: usize,
    pub steps: usize,
    pub ready: u8,
    pub beside: [u8; 7],
}

impl Outputs {
    /// Anything at all, to be written over or left alone.
    pub fn any(random: &mut Random) -> Self {
        let mut size = || random.bits() as usize;
        let [n, l, u, moved_row, moved_column, index, counter, steps] = [(); 8].map(|()| size());
        let [ready, beside @ ..] = random.bits().to_ne_bytes();
        Self {
            n,
            l,
            u,
            moved_row,
            moved_column,
            index,
            counter,
            steps,
            ready,
            beside,
        }
    }

    /// The same with an instance's dimension and counter.
    pub fn of(self, instance: &Instance) -> Self {
        let Instance { n, counter, .. } = *instance;
        Self { n, counter, ..self }
    }

    /// What an accepted call writes, without the counter and the pair steps.
    fn accept(&mut self, call: &Call, before: &Instance) {
        let n = before.n;
        let moved = |index| if index + 1 == n { usize::MAX } else { n - 1 };
        self.n = call.function.dimension_after(n);
        match call.function {
            Function::StorageLengths => {
                let (l, u) = lengths(before.c);
                (self.l, self.u) = (l as usize, u as usize);
            }
            Function::Remove => {
                self.moved_row = moved(call.row);
                self.moved_column = moved(call.column);
            }
            Function::Ready => self.ready = u8::from(is_ready(before)),
            _ => {}
        }
    }
}

#[derive(Clone, Copy, PartialEq)]
pub struct Answer {
    pub number: u32,
    pub outputs: Outputs,
}

impl Answer {
    /// The answer of documents 01 and 02 to a call whose outputs held `outputs`. The
    /// counter and the pair steps are left as they were, as they are by the Rust.
    pub fn of_document(call: &Call, before: &Instance, outputs: Outputs) -> Self {
        let number = number(call, before);
        let mut outputs = outputs.of(before);
        if number == 0 {
            outputs.accept(call, before);
        }
        if let Some(index) = index(number, call, before) {
            outputs.index = index;
        }
        Self { number, outputs }
    }

    /// The same as the Rust gives it, which has one name for 3, 13 and 14.
    pub fn published(self) -> Self {
        Self {
            number: published_number(self.number),
            ..self
        }
    }

    /// The Rust's answer with the number that the documents have for its name.
    pub fn finer(self, call: &Call, before: &Instance) -> Self {
        let number = number(call, before);
        if published_number(number) == self.number {
            Self { number, ..self }
        } else {
            self
        }
    }

    /// The same with the counter and the number that an update leaves after so many
    /// pair steps.
    pub fn counted(mut self, before: &Instance, steps: usize) -> Self {
        if self.number == 0 {
            self.outputs.counter = counter::after(before.counter, steps);
        }
        self.outputs.steps = steps;
        self
    }

    /// The first of its parts that is not as expected.
    pub fn difference(&self, expected: &Self) -> Option<String> {
        if self == expected {
            return None;
        }
        let parts = self.parts().into_iter().zip(expected.parts());
        let mut differing = parts.filter(|(found, expected)| found != expected);
        differing
            .next()
            .map(|((name, found), (_, expected))| format!("{name} {found}, expected {expected}"))
    }

    fn parts(&self) -> [(&'static str, String); 11] {
        let outputs = &self.outputs;
        [
            ("number", self.number.to_string()),
            ("n", outputs.n.to_string()),
            ("l", outputs.l.to_string()),
            ("u", outputs.u.to_string()),
            ("moved_row", outputs.moved_row.to_string()),
            ("moved_column", outputs.moved_column.to_string()),
            ("index", outputs.index.to_string()),
            ("counter", outputs.counter.to_string()),
            ("steps", outputs.steps.to_string()),
            ("ready", outputs.ready.to_string()),
            ("bytes beside ready", format!("{:?}", outputs.beside)),
        ]
    }
}
