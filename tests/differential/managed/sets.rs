//! Refused calls in every combination: for each function every set of causes
//! that can hold at once, so that each refusal meets each other one.

use super::call::{Call, Function, Instance, DATA, FUNCTIONS};
use super::comparison::{Comparison, Sides};
use super::refusals::{first_cause, Cause};
use super::refused::make_refused;
use crate::buffers::{surplus, Name};
use crate::calls::End;
use crate::data::Profile;
use crate::factors::{fill_factors, replace_bad_diagonal};
use crate::random::Random;
use crate::sets::every_set;

/// Dimensions and capacities that agree.
const SHAPES: [(usize, usize); 9] = [
    (0, 0),
    (0, 1),
    (0, 3),
    (1, 1),
    (1, 2),
    (2, 2),
    (2, 5),
    (4, 4),
    (5, 6),
];

/// How often each set is made of each shape: indices and lengths differ.
const ROUNDS: usize = 3;

/// Capacities about the largest whose lengths fit usize, and small ones.
const CAPACITIES: [usize; 9] = [
    0,
    1,
    4,
    1000,
    (1 << 31) + 1,
    (1 << 32) - 2,
    (1 << 32) - 1,
    1 << 32,
    usize::MAX,
];

/// Gives how many sets there are.
pub fn call_all(random: &mut Random, comparison: &mut Comparison) -> Result<usize, End> {
    for c in CAPACITIES {
        let (call, mut instance) = agreeing(Function::StorageLengths, 0, 0, random);
        instance.c = c;
        comparison.call(&call, &mut Sides::alone(instance), random)?;
    }
    let mut sets = 0;
    for function in FUNCTIONS {
        for chosen in every_set(&function.causes()) {
            if chosen.contains(&Cause::Dimension) && chosen.contains(&Cause::NoRoom) {
                continue;
            }
            call_set(function, &chosen, random, comparison)?;
            sets += 1;
        }
    }
    Ok(sets)
}

fn call_set(
    function: Function,
    causes: &[Cause],
    random: &mut Random,
    comparison: &mut Comparison,
) -> Result<(), End> {
    let mut built = false;
    for (n, c) in SHAPES.repeat(ROUNDS) {
        let (mut call, mut instance) = agreeing(function, n, c, random);
        make_refused(causes, &mut call, &mut instance, random);
        let all_hold = causes.iter().all(|cause| cause.holds(&call, &instance));
        if all_hold && first_cause(&call, &instance) == causes.first().copied() {
            comparison.call(&call, &mut Sides::alone(instance), random)?;
            built = true;
        }
    }
    if built {
        return Ok(());
    }
    println!("a set of causes of {} was not built", function.text());
    Err(End::NotReached)
}

/// A call that is accepted, if the function has something to be made on at dimension n.
fn agreeing(function: Function, n: usize, c: usize, random: &mut Random) -> (Call, Instance) {
    let profile = Profile::choose(random);
    let mut call = Call {
        function,
        row: random.index(n),
        column: random.index(n),
        diagonal: profile.value(random),
    };
    let mut instance = Instance::new(n, c, random);
    fill_factors(&mut instance.buffers, c, n, profile, random);
    replace_bad_diagonal(instance.buffers[Name::U].slice_mut(), c, n, random);
    for name in DATA {
        instance.lend(name, n, profile, random);
    }
    call.make_data_finite(&mut instance, random);
    let workspace = function.workspace_length(n) as usize + surplus(random);
    instance.lend_workspaces(workspace, random);
    (call, instance)
}
