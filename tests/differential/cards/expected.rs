//! What a call on a card must answer and leave in what it is lent.

use super::bytes::Bytes;
use super::call::{Answer, Function, Lent, Outputs};
use super::refusals::{first_cause, Cause};
use super::words::{damaged_blocks, length, places, State, Words};
use crate::expectation::{Expectation, Place};

pub struct Expected {
    pub answer: Answer,
    pub buffers: Expectation,
    pub card: Bytes,
}

impl Expected {
    /// By document 02, of a call whose outputs held `outputs`.
    pub fn new(function: Function, before: &Lent, outputs: Outputs) -> Self {
        let cause = first_cause(function.causes(), before);
        Self::by_cause(cause, function, before, outputs)
    }

    /// Of a call that is refused for a cause, or carried out.
    pub fn by_cause(
        cause: Option<Cause>,
        function: Function,
        before: &Lent,
        outputs: Outputs,
    ) -> Self {
        let Lent { instance, card } = before;
        let buffers = &instance.buffers;
        let mut expected = Self {
            answer: Answer { number: 0, outputs },
            buffers: Expectation::new(buffers.clone(), buffers.clone()),
            card: card.clone(),
        };
        match cause {
            Some(cause) => expected.refuse(cause, before),
            None => expected.accept(function, before),
        }
        expected
    }

    fn refuse(&mut self, cause: Cause, before: &Lent) {
        self.answer.number = cause.number();
        if cause == Cause::DamagedBlock {
            let damaged = damaged_blocks(before.card.slice());
            self.answer.outputs.block = damaged[0];
        }
    }

    fn accept(&mut self, function: Function, before: &Lent) {
        let Lent { instance, card } = before;
        match function {
            Function::CardLength => self.answer.outputs.bytes = length(instance.n) as usize,
            Function::WriteCard => self.write(&State::of(instance).words().bytes()),
            Function::ReadCard => self.read(instance.c, &Words::of(card.slice()).state()),
        }
    }

    pub fn write(&mut self, bytes: &[u8]) {
        self.card.slice_mut()[..bytes.len()].copy_from_slice(bytes);
        self.answer.outputs.written = bytes.len();
    }

    fn read(&mut self, c: usize, state: &State) {
        let outputs = &mut self.answer.outputs;
        (outputs.n, outputs.counter) = (state.n, state.counter);
        for ((name, place), &bits) in places(c, state.n).zip(&state.entries) {
            self.buffers.rust[name].slice_mut()[place] = f64::from_bits(bits);
            self.buffers.mark(name, place..place + 1, Place::Result);
        }
    }
}
