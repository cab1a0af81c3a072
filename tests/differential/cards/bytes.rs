//! The bytes of a lent card, with bytes beside them that no call may touch.

use crate::random::Random;

/// More than a block.
const BESIDE: usize = 520;

#[derive(Clone, PartialEq)]
pub struct Bytes {
    cells: Vec<u8>,
    start: usize,
    length: usize,
}

impl Bytes {
    /// Any bytes, at any address.
    pub fn new(length: usize, random: &mut Random) -> Self {
        let start = BESIDE + random.below(8);
        let count = start + length + BESIDE;
        let cells = (0..count.div_ceil(8)).flat_map(|_| random.bits().to_ne_bytes());
        Self {
            cells: cells.take(count).collect(),
            start,
            length,
        }
    }

    pub fn holding(bytes: &[u8], random: &mut Random) -> Self {
        let mut card = Self::new(bytes.len(), random);
        card.slice_mut().copy_from_slice(bytes);
        card
    }

    pub fn len(&self) -> usize {
        self.length
    }

    pub fn slice(&self) -> &[u8] {
        &self.cells[self.start..self.start + self.length]
    }

    pub fn slice_mut(&mut self) -> &mut [u8] {
        &mut self.cells[self.start..self.start + self.length]
    }

    /// The places of a card start at 0. The bytes before it have negative places.
    pub fn places(&self) -> impl Iterator<Item = isize> {
        let start = self.start as isize;
        -start..self.cells.len() as isize - start
    }

    pub fn at_mut(&mut self, place: isize) -> &mut u8 {
        &mut self.cells[(place + self.start as isize) as usize]
    }

    /// The first place at which what a call left is not as expected.
    pub fn difference(&self, expected: &Self) -> Option<String> {
        if self == expected {
            return None;
        }
        let place = |k: usize| k as isize - self.start as isize;
        let pairs = self.cells.iter().zip(&expected.cells).enumerate();
        let mut differing = pairs.filter(|(_, (found, expected))| found != expected);
        differing.next().map(|(k, (found, expected))| {
            let place = place(k);
            format!("left {found:02x} in card[{place}], expected {expected:02x}")
        })
    }
}
