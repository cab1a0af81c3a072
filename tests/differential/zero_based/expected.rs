//! What a zero-based call must return and leave in every buffer.

use super::arguments::{Arguments, Function};
use crate::buffers::{Buffers, Name, VECTORS};
use crate::expectation::{Expectation, Place};

pub struct Expected {
    pub number: u32,
    pub buffers: Expectation,
}

impl Expected {
    pub fn new(arguments: &Arguments, number: u32, before: Buffers, rust: Buffers) -> Self {
        let mut buffers = Expectation::new(before, rust);
        if number == 0 {
            mark(&mut buffers, arguments);
        }
        Self { number, buffers }
    }
}

fn mark(buffers: &mut Expectation, arguments: &Arguments) {
    let n = arguments.n as usize;
    match arguments.function {
        Function::LUmod => {
            buffers.mark_factors(arguments.stride(), n, arguments.dimension_after());
            for name in VECTORS {
                buffers.mark(name, 0..n, Place::Scratch);
            }
        }
        Function::Lprod => buffers.mark(Name::Z, 0..n, Place::Result),
        Function::Usolve => buffers.mark(Name::Y, 0..n, Place::Result),
    }
}
