//! Refused calls on cards in every combination: for each function every set of causes, of which
//! each can hold beside the others, so that each refusal meets each other one.

use super::call::{Function, Lent, FUNCTIONS};
use super::comparison::Comparison;
use super::refusals::{first_cause, Cause};
use super::refused::make_refused;
use super::states::{any_capacity, any_instance, to_read, to_write};
use super::words::State;
use crate::calls::End;
use crate::random::Random;
use crate::sets::every_set;

/// Dimensions and capacities that agree. A card of dimension 9 has no rest, and one of
/// dimension 12 has five blocks.
const SHAPES: [(usize, usize); 10] = [
    (0, 0),
    (0, 3),
    (1, 1),
    (1, 2),
    (2, 2),
    (3, 5),
    (7, 7),
    (9, 9),
    (9, 10),
    (12, 12),
];

/// How often each set is made of each shape: numbers, lengths and flaws differ.
const ROUNDS: usize = 8;

/// Gives how many sets there are.
pub fn call_all(random: &mut Random, comparison: &mut Comparison) -> Result<usize, End> {
    let mut sets = 0;
    for function in FUNCTIONS {
        for chosen in every_set(function.causes()) {
            call_set(function, &chosen, random, comparison)?;
            sets += 1;
        }
    }
    Ok(sets)
}

fn call_set(
    function: Function,
    causes: &[Cause],
    random: &mut Random,
    comparison: &mut Comparison,
) -> Result<(), End> {
    let mut built = false;
    for (n, c) in SHAPES.repeat(ROUNDS) {
        let mut lent = agreeing(function, n, c, random);
        make_refused(function, causes, &mut lent, random);
        let all_hold = causes.iter().all(|cause| cause.holds(&lent));
        let first = first_cause(function.causes(), &lent);
        if all_hold && first == causes.first().copied() {
            comparison.call(function, &mut lent, random)?;
            built = true;
        }
    }
    if built {
        return Ok(());
    }
    println!("a set of causes of {} was not built", function.text());
    Err(End::NotReached)
}

/// A call that is accepted.
fn agreeing(function: Function, n: usize, c: usize, random: &mut Random) -> Lent {
    let instance = any_instance(n, c, random);
    match function {
        Function::ReadCard => to_read(&State::of(&instance).words().bytes(), c, random),
        _ => to_write(instance, random),
    }
}

/// A call that is refused for some causes, or for none.
pub fn call_refused(random: &mut Random, comparison: &mut Comparison) -> Result<(), End> {
    let function = random.pick(&FUNCTIONS);
    let (n, _) = random.pick(&SHAPES);
    let mut lent = agreeing(function, n, any_capacity(n, random), random);
    let mut causes = function.causes().to_vec();
    let count = causes.len();
    causes.retain(|_| random.chance(2, count));
    make_refused(function, &causes, &mut lent, random);
    comparison.call(function, &mut lent, random).map(drop)
}
