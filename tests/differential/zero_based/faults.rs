//! The faults that are planted among the zero-based calls.

use super::arguments::{Arguments, Function};
use super::expected::Expected;
use crate::buffers::Name;
use crate::expectation::Place;
use crate::plant::{flip, places, Planter};

#[derive(Clone, Copy, PartialEq)]
pub enum Fault {
    Factor,
    Product,
    Solution,
    UnusedStorage,
    Number,
    SignOfZero,
    NumberForNan,
    AfterRefusal,
    BesideBuffer,
    KeptVector,
}

/// Every kind of fault, with what it changes.
pub const FAULTS: [(Fault, &str); 10] = [
    (Fault::Factor, "the last bit of an active entry"),
    (Fault::Product, "the last bit of an entry of a product"),
    (Fault::Solution, "the last bit of an entry of a solution"),
    (Fault::UnusedStorage, "a bit of unused storage"),
    (Fault::Number, "the returned number"),
    (Fault::SignOfZero, "the sign of a zero in a result"),
    (Fault::NumberForNan, "a number for a NaN in a result"),
    (Fault::AfterRefusal, "a bit of a buffer after a refusal"),
    (Fault::BesideBuffer, "a bit beside a buffer"),
    (Fault::KeptVector, "a bit of a vector that is kept"),
];

pub fn plant(
    planter: &mut Planter<Fault>,
    call: u64,
    arguments: &Arguments,
    expected: &mut Expected,
) {
    let chosen = planter.choose(call, |fault| {
        places(&expected.buffers, |name, place| {
            suits(fault, arguments, expected, name, place)
        })
    });
    let Some((fault, (name, place), bit)) = chosen else {
        return;
    };
    let result = expected.buffers.rust[name].at_mut(place);
    match fault {
        Fault::Factor | Fault::Product | Fault::Solution => flip(result, 0),
        Fault::SignOfZero => flip(result, 63),
        Fault::NumberForNan => *result = 1.0,
        Fault::Number => expected.number = if expected.number == 12 { 11 } else { 12 },
        _ => flip(expected.buffers.before[name].at_mut(place), bit),
    }
}

fn suits(
    fault: Fault,
    arguments: &Arguments,
    expected: &Expected,
    name: Name,
    place: isize,
) -> bool {
    let buffers = &expected.buffers;
    let value = buffers.rust[name].at(place);
    let result = buffers.place(name, place) == Place::Result;
    let number = result && !value.is_nan();
    let inside = place >= 0 && place < buffers.before[name].len() as isize;
    let accepted = expected.number == 0;
    let kept = accepted && inside && buffers.place(name, place) == Place::Kept;
    let factor = matches!(name, Name::L | Name::U);
    match fault {
        Fault::Factor => number && arguments.function == Function::LUmod,
        Fault::Product => number && arguments.function == Function::Lprod,
        Fault::Solution => number && arguments.function == Function::Usolve,
        Fault::UnusedStorage => kept && factor,
        Fault::Number => true,
        Fault::SignOfZero => result && value == 0.0,
        Fault::NumberForNan => result && value.is_nan(),
        Fault::AfterRefusal => !accepted && inside,
        Fault::BesideBuffer => !inside,
        Fault::KeptVector => kept && !factor,
    }
}
