//! The buffers of a call, with doubles beside them that no call may touch.

use std::ops::{Index, IndexMut};

use crate::data::unused_value;
use crate::random::Random;

const BESIDE: usize = 3;

/// How many doubles more than needed: often none.
pub fn surplus(random: &mut Random) -> usize {
    random.pick(&[0, 0, 0, 1, 2, 5])
}

/// The places of a buffer start at 0. The doubles before it have negative places.
#[derive(Clone)]
pub struct Buffer {
    cells: Vec<f64>,
    start: usize,
    length: usize,
}

impl Buffer {
    /// With what unused storage holds. The start is sometimes a multiple of 16 bytes
    /// and sometimes not.
    pub fn new(length: usize, random: &mut Random) -> Self {
        let start = BESIDE + random.below(2);
        let cells = (0..start + length + BESIDE).map(|_| unused_value(random));
        Self {
            cells: cells.collect(),
            start,
            length,
        }
    }

    /// The same values with other doubles beside them.
    pub fn holding(values: &[f64], random: &mut Random) -> Self {
        let mut buffer = Self::new(values.len(), random);
        buffer.slice_mut().copy_from_slice(values);
        buffer
    }

    pub fn len(&self) -> usize {
        self.length
    }

    pub fn slice(&self) -> &[f64] {
        &self.cells[self.start..self.start + self.length]
    }

    pub fn slice_mut(&mut self) -> &mut [f64] {
        &mut self.cells[self.start..self.start + self.length]
    }

    /// Keeps what is there up to the new length.
    pub fn set_len(&mut self, length: usize, random: &mut Random) {
        let end = self.start + self.length.min(length);
        self.cells.truncate(end);
        while self.cells.len() < self.start + length + BESIDE {
            self.cells.push(unused_value(random));
        }
        self.length = length;
    }

    pub fn first_place(&self) -> isize {
        -(self.start as isize)
    }

    /// The place after the last double that is kept beside the buffer.
    pub fn end_place(&self) -> isize {
        (self.cells.len() - self.start) as isize
    }

    pub fn at(&self, place: isize) -> f64 {
        self.cells[(place + self.start as isize) as usize]
    }

    pub fn at_mut(&mut self, place: isize) -> &mut f64 {
        &mut self.cells[(place + self.start as isize) as usize]
    }
}

/// The factors, the workspaces, and what managed calls are lent besides.
#[derive(Clone, Copy, PartialEq)]
pub enum Name {
    L,
    U,
    Y,
    Z,
    W,
    Row,
    Column,
    RightHandSide,
}

use Name::*;

pub const NAMES: [Name; 8] = [L, U, Y, Z, W, Row, Column, RightHandSide];
pub const VECTORS: [Name; 3] = [Y, Z, W];

impl Name {
    pub fn text(self) -> &'static str {
        ["l", "u", "y", "z", "w", "row", "column", "rhs"][self as usize]
    }
}

#[derive(Clone)]
pub struct Buffers([Buffer; NAMES.len()]);

impl Buffers {
    /// Buffers of the given lengths, in the order l, u, y, z, w, with what unused
    /// storage holds. The others are empty.
    pub fn new(lengths: [usize; 5], random: &mut Random) -> Self {
        let length = |name| lengths.get(name as usize).map_or(0, |&length| length);
        Self(NAMES.map(|name| Buffer::new(length(name), random)))
    }

    /// All of them at once, as a call needs them.
    pub fn slices_mut(&mut self) -> [&mut [f64]; NAMES.len()] {
        self.0.each_mut().map(Buffer::slice_mut)
    }
}

impl Index<Name> for Buffers {
    type Output = Buffer;

    fn index(&self, name: Name) -> &Buffer {
        &self.0[name as usize]
    }
}

impl IndexMut<Name> for Buffers {
    fn index_mut(&mut self, name: Name) -> &mut Buffer {
        &mut self.0[name as usize]
    }
}
