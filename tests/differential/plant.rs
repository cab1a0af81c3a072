//! Faults planted in what is expected of a call, to show that a comparison finds them.

use crate::buffers::{Name, NAMES};
use crate::expectation::Expectation;
use crate::random::Random;

/// Chooses where a fault is planted: once, at one of the first calls that have
/// a place for it.
pub struct Planter<Fault> {
    fault: Option<Fault>,
    random: Random,
    wait: usize,
    pub planted: bool,
}

impl<Fault: Copy> Planter<Fault> {
    /// The kinds are numbered from 1. 0: nothing is planted.
    pub fn of_kind(faults: &[(Fault, &str)], kind: usize, seed: u64) -> Self {
        let fault = kind.checked_sub(1).map(|k| faults[k]);
        if let Some((_, what)) = fault {
            println!("fault {kind}, {what}");
        }
        let mut random = Random::new(!seed);
        let wait = random.below(8);
        Self {
            fault: fault.map(|(fault, _)| fault),
            random,
            wait,
            planted: false,
        }
    }

    /// The fault, one of the places that the call has for it, and a bit to change there.
    pub fn choose<P: Copy>(
        &mut self,
        call: u64,
        places: impl FnOnce(Fault) -> Vec<P>,
    ) -> Option<(Fault, P, u32)> {
        let fault = self.fault.filter(|_| !self.planted)?;
        let places = places(fault);
        if places.is_empty() {
            return None;
        }
        if self.wait > 0 {
            self.wait -= 1;
            return None;
        }
        self.planted = true;
        println!("planted at call {call}");
        let place = self.random.pick(&places);
        Some((fault, place, self.random.below(64) as u32))
    }
}

/// Every place of the buffers, and beside them, that suits.
pub fn places(
    expectation: &Expectation,
    suits: impl Fn(Name, isize) -> bool,
) -> Vec<(Name, isize)> {
    let all = NAMES.into_iter().flat_map(|name| {
        let buffer = &expectation.before[name];
        (buffer.first_place()..buffer.end_place()).map(move |place| (name, place))
    });
    all.filter(|&(name, place)| suits(name, place)).collect()
}

pub fn flip(value: &mut f64, bit: u32) {
    *value = f64::from_bits(value.to_bits() ^ 1 << bit);
}
