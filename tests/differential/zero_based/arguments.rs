//! The numbers of a zero-based call, and the refusal that they and the lengths
//! call for.

use std::fmt;

use crate::buffers::{Buffers, Name};

#[derive(Clone, Copy, PartialEq)]
pub enum Function {
    LUmod,
    Lprod,
    Usolve,
}

impl Function {
    /// The buffers that the function is lent.
    pub fn lent(self) -> &'static [Name] {
        match self {
            Function::LUmod => &[Name::L, Name::U, Name::Y, Name::Z, Name::W],
            Function::Lprod => &[Name::L, Name::Y, Name::Z],
            Function::Usolve => &[Name::U, Name::Y],
        }
    }
}

#[derive(Clone, Copy)]
pub struct Arguments {
    pub function: Function,
    pub mode: i32,
    pub maxmod: i32,
    pub n: i32,
    pub krow: i32,
    pub kcol: i32,
}

impl Arguments {
    pub fn stride(&self) -> usize {
        self.maxmod.max(1) as usize
    }

    /// The dimension after an accepted call.
    pub fn dimension_after(&self) -> usize {
        let n = self.n as usize;
        if self.removes() {
            n - 1
        } else {
            n
        }
    }

    pub fn removes(&self) -> bool {
        self.function == Function::LUmod && self.mode == 4
    }

    /// Document 01's number: 0 accepted, 11 passed over, 12 too small.
    pub fn number(&self, buffers: &Buffers) -> u32 {
        if self.is_passed_over() {
            11
        } else if self.is_too_small(buffers) {
            12
        } else {
            0
        }
    }

    fn is_passed_over(&self) -> bool {
        let no_row = self.krow < 0 || self.krow >= self.n;
        let no_column = self.kcol < 0 || self.kcol >= self.n;
        self.n <= 0
            || self.function == Function::LUmod
                && match self.mode {
                    1 => false,
                    2 => no_column,
                    3 => no_row,
                    4 => no_row || no_column,
                    _ => true,
                }
    }

    fn is_too_small(&self, buffers: &Buffers) -> bool {
        let stride = self.stride() as u64;
        let n = self.n as u64;
        let is_short = |&name: &Name| {
            let needed = match name {
                Name::L => stride * stride,
                Name::U => stride * (stride + 1) / 2,
                _ => n,
            };
            (buffers[name].len() as u64) < needed
        };
        n > stride || self.function.lent().iter().any(is_short)
    }
}

impl fmt::Display for Arguments {
    fn fmt(&self, f: &mut fmt::Formatter) -> fmt::Result {
        let Arguments {
            mode, maxmod, n, ..
        } = self;
        match self.function {
            Function::LUmod => write!(
                f,
                "LUmod mode {mode} maxmod {maxmod} n {n} krow {} kcol {}",
                self.krow, self.kcol
            ),
            Function::Lprod => write!(f, "Lprod mode {mode} maxmod {maxmod} n {n}"),
            Function::Usolve => write!(f, "Usolve mode {mode} maxmod {maxmod} n {n}"),
        }
    }
}
