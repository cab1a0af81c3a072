//! What a managed call must answer and leave in an instance.

use super::answer::Answer;
use super::call::{Call, Function, Instance};
use crate::buffers::{Name, VECTORS};
use crate::expectation::{Expectation, Place};
use crate::factors::copy_active;

pub struct Expected {
    pub answer: Answer,
    pub buffers: Expectation,
}

impl Expected {
    /// Of a call on `before`, where the Rust gave `answer` and left `rust`, which
    /// may have another capacity.
    pub fn new(call: &Call, before: &Instance, answer: Answer, rust: &Instance) -> Self {
        let mut buffers = Expectation::new(before.buffers.clone(), before.buffers.clone());
        match call.function {
            _ if answer.number != 0 => {}
            Function::Solve | Function::SolveTranspose => solved(&mut buffers, before, rust),
            function if function.is_update() => updated(&mut buffers, before, rust),
            _ => {}
        }
        Self { answer, buffers }
    }
}

fn updated(buffers: &mut Expectation, before: &Instance, rust: &Instance) {
    let to = (&mut buffers.rust, before.c);
    copy_active(rust.n, (&rust.buffers, rust.c), to);
    buffers.mark_factors(before.c, before.n, rust.n);
    for name in VECTORS {
        buffers.mark(name, 0..before.n.max(rust.n), Place::Scratch);
    }
}

fn solved(buffers: &mut Expectation, before: &Instance, rust: &Instance) {
    let Instance { n, c, .. } = *before;
    let solution = rust.buffers[Name::RightHandSide].slice();
    buffers.rust[Name::RightHandSide]
        .slice_mut()
        .copy_from_slice(solution);
    buffers.mark(Name::RightHandSide, 0..n, Place::Result);
    buffers.mark(Name::L, c * c..c * c + n, Place::Scratch);
}
