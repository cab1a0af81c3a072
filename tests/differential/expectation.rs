//! What a call must leave in every buffer.

use std::ops::Range;

use crate::buffers::{Buffers, Name, NAMES};
use crate::places::active;

#[derive(Clone, Copy, PartialEq)]
pub enum Place {
    /// Holds what it held before, to the bit.
    Kept,
    /// Holds the Rust's result, to the bit, with all NaNs alike.
    Result,
    /// Holds anything.
    Scratch,
}

pub struct Expectation {
    pub before: Buffers,
    /// The Rust's results, each at its place.
    pub rust: Buffers,
    places: [Vec<Place>; NAMES.len()],
}

pub struct Difference {
    pub name: Name,
    pub place: isize,
    pub found: u64,
    pub expected: u64,
}

impl Expectation {
    /// Everything is kept.
    pub fn new(before: Buffers, rust: Buffers) -> Self {
        let places = NAMES.map(|name| vec![Place::Kept; before[name].len()]);
        Self {
            before,
            rust,
            places,
        }
    }

    /// Places beside a buffer are kept.
    pub fn place(&self, name: Name, place: isize) -> Place {
        usize::try_from(place)
            .ok()
            .and_then(|place| self.places[name as usize].get(place))
            .map_or(Place::Kept, |&place| place)
    }

    pub fn mark(&mut self, name: Name, range: Range<usize>, place: Place) {
        self.places[name as usize][range].fill(place);
    }

    /// Active entries at dimension `after` are results. What was active at a larger
    /// dimension before is scratch: the row and column that remove drops.
    pub fn mark_factors(&mut self, stride: usize, before: usize, after: usize) {
        for (name, place) in active(stride, before) {
            self.places[name as usize][place] = Place::Scratch;
        }
        for (name, place) in active(stride, after) {
            self.places[name as usize][place] = Place::Result;
        }
    }

    pub fn has_result_not_finite(&self) -> bool {
        NAMES.into_iter().any(|name| {
            let values = self.rust[name].slice().iter();
            let mut results = values.zip(&self.places[name as usize]);
            results.any(|(value, &place)| place == Place::Result && !value.is_finite())
        })
    }

    /// The first place at which what a call left is not as expected.
    pub fn compare(&self, left: &Buffers) -> Option<Difference> {
        NAMES.into_iter().find_map(|name| {
            let before = &self.before[name];
            (before.first_place()..before.end_place())
                .find_map(|place| self.compare_place(left, name, place))
        })
    }

    fn compare_place(&self, left: &Buffers, name: Name, place: isize) -> Option<Difference> {
        let found = left[name].at(place);
        let (expected, nans_alike) = match self.place(name, place) {
            Place::Scratch => return None,
            Place::Result => (self.rust[name].at(place), true),
            Place::Kept => (self.before[name].at(place), false),
        };
        let alike = nans_alike && found.is_nan() && expected.is_nan();
        let (found, expected) = (found.to_bits(), expected.to_bits());
        (found != expected && !alike).then_some(Difference {
            name,
            place,
            found,
            expected,
        })
    }
}
