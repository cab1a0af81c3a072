//! A call on a card: what it is lent, what it answers, and the archive's answer.

use std::fmt;

use super::bytes::Bytes;
use super::declarations::*;
use crate::managed::call::Instance;
use crate::random::Random;

#[derive(Clone, Copy, PartialEq)]
pub enum Function {
    CardLength,
    WriteCard,
    ReadCard,
}

pub const FUNCTIONS: [Function; 3] = [
    Function::CardLength,
    Function::WriteCard,
    Function::ReadCard,
];

impl Function {
    pub fn text(self) -> &'static str {
        ["card_length", "write_card", "read_card"][self as usize]
    }
}

/// card_length takes the dimension alone. To read_card the dimension and the counter
/// before the call are nothing.
#[derive(Clone)]
pub struct Lent {
    pub instance: Instance,
    pub card: Bytes,
}

/// All outputs that any call has besides its buffers, one beside the other. A
/// call is lent some of them and must leave the others as they were.
#[repr(C)]
#[derive(Clone, Copy, PartialEq)]
pub struct Outputs {
    pub n: usize,
    pub counter: usize,
    pub bytes: usize,
    pub written: usize,
    pub block: usize,
}

impl Outputs {
    /// Anything at all, to be written over or left alone.
    pub fn any(random: &mut Random) -> Self {
        let [n, counter, bytes, written, block] = [(); 5].map(|()| random.bits() as usize);
        Self {
            n,
            counter,
            bytes,
            written,
            block,
        }
    }
}

#[derive(Clone, Copy, PartialEq)]
pub struct Answer {
    pub number: u32,
    pub outputs: Outputs,
}

impl Answer {
    /// The first of its parts that is not as expected.
    pub fn difference(&self, expected: &Self) -> Option<String> {
        let parts = self.parts().into_iter().zip(expected.parts());
        let mut differing = parts.filter(|(found, expected)| found != expected);
        differing
            .next()
            .map(|((name, found), (_, expected))| format!("{name} {found}, expected {expected}"))
    }

    fn parts(&self) -> [(&'static str, usize); 6] {
        let outputs = &self.outputs;
        [
            ("number", self.number as usize),
            ("n", outputs.n),
            ("counter", outputs.counter),
            ("bytes", outputs.bytes),
            ("written", outputs.written),
            ("block", outputs.block),
        ]
    }
}

/// Makes the call in the archive. An instance that was read gets its dimension and its counter.
#[rustfmt::skip]
pub fn call_archive(function: Function, lent: &mut Lent, mut outputs: Outputs) -> Answer {
    let Lent { instance, card } = lent;
    let Instance { n, c, counter, ref mut buffers } = *instance;
    let (card, card_len) = (card.slice_mut().as_mut_ptr(), card.len());
    let [l, u, ..] = buffers.slices_mut();
    let (l, l_len, u, u_len) = (l.as_mut_ptr(), l.len(), u.as_mut_ptr(), u.len());
    let Outputs { n: to_n, counter: to_counter, bytes, written, block } = &mut outputs;
    // SAFETY: every pointer comes with the length of its own slice, and the slices are apart.
    let number = unsafe {
        match function {
            Function::CardLength => lumod_card_length(n, bytes),
            Function::WriteCard => {
                lumod_write_card(n, c, counter, l, l_len, u, u_len, card, card_len, written)
            }
            Function::ReadCard => {
                lumod_read_card(to_n, c, to_counter, l, l_len, u, u_len, card, card_len, block)
            }
        }
    };
    if function == Function::ReadCard && number == 0 {
        (instance.n, instance.counter) = (outputs.n, outputs.counter);
    }
    Answer { number, outputs }
}

/// A call with what it is lent, for a report.
pub struct Made<'a>(pub Function, pub &'a Lent);

impl fmt::Display for Made<'_> {
    fn fmt(&self, f: &mut fmt::Formatter) -> fmt::Result {
        let Self(function, Lent { instance, card }) = self;
        let Instance { n, c, counter, .. } = instance;
        write!(f, "{}", function.text())?;
        match function {
            Function::CardLength => return write!(f, " n {n}"),
            Function::WriteCard => write!(f, " n {n} c {c} counter {counter}")?,
            Function::ReadCard => write!(f, " c {c}")?,
        }
        write!(f, "\ncard before the call, length {}: ", card.len())?;
        let mut bytes = card.slice().iter();
        bytes.try_for_each(|byte| write!(f, "{byte:02x}"))
    }
}
