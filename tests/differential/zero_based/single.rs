//! Single zero-based calls on arbitrary buffers.

use super::arguments::{Arguments, Function};
use super::comparison::Comparison;
use super::limits::{capacity, change, lengths};
use crate::buffers::{Buffers, Name};
use crate::calls::End;
use crate::data::{Profile, ZERO_BASED};
use crate::factors::{fill_factors, fill_vector};
use crate::guards;
use crate::places::{diagonal, l_column, u_column};
use crate::random::Random;

pub fn call_once(random: &mut Random, comparison: &mut Comparison) -> Result<(), End> {
    let mut arguments = agreeing(random);
    let (n, stride) = (arguments.n as usize, arguments.stride());
    let mut buffers = Buffers::new(lengths(stride, n, random), random);
    let profile = Profile::choose(random);
    fill_factors(&mut buffers, stride, n, profile, random);
    fill_data(&arguments, &mut buffers, profile, random);
    if arguments.function == Function::LUmod && random.chance(1, 2) {
        put_at_guard(&arguments, &mut buffers, random);
    }
    if random.chance(1, 3) {
        change(&mut arguments, &mut buffers, random);
    }
    comparison.call(&arguments, &buffers)?;
    Ok(())
}

/// Numbers of a call that is accepted.
fn agreeing(random: &mut Random) -> Arguments {
    let maxmod = capacity(random);
    let stride = i64::from(maxmod.max(1));
    let n = random.between(1, stride) as i32;
    let n = random.pick(&[n, n, n, stride as i32, 1]);
    let (function, modes): (Function, &[i32]) = match random.below(6) {
        0 => (Function::Lprod, &[1, 2]),
        1 => (Function::Usolve, &[1, 2]),
        _ => (Function::LUmod, &[1, 2, 3, 4]),
    };
    Arguments {
        function,
        mode: random.pick(modes),
        maxmod,
        n,
        krow: random.index(n as usize) as i32,
        kcol: random.index(n as usize) as i32,
    }
}

/// The vectors that the call reads. The others hold anything.
pub fn fill_data(
    arguments: &Arguments,
    buffers: &mut Buffers,
    profile: Profile,
    random: &mut Random,
) {
    let n = arguments.n as usize;
    let mut fill = |name, count| fill_vector(buffers, name, count, profile, random);
    match (arguments.function, arguments.mode) {
        (Function::LUmod, 1) => {
            fill(Name::Y, n);
            fill(Name::Z, n - 1);
        }
        (Function::LUmod, 2) => fill(Name::Z, n),
        (Function::LUmod, 4) => {}
        _ => fill(Name::Y, n),
    }
}

fn put_at_guard(arguments: &Arguments, buffers: &mut Buffers, random: &mut Random) {
    let (n, stride) = (arguments.n as usize, arguments.stride());
    match (arguments.mode, random.below(2)) {
        (1 | 3, 0) => put_at_forward(arguments, buffers, random),
        (1, _) => put_at_pivot(arguments, buffers, random),
        (2, _) => put_at_backward(arguments, buffers, random),
        (4, 0) => {
            let u = buffers[Name::U].slice_mut();
            guards::at_column(u, u_column(stride, n - 1), ZERO_BASED, random);
        }
        _ => {
            let places = l_column(stride, n, arguments.krow as usize);
            guards::at_column(buffers[Name::L].slice_mut(), places, ZERO_BASED, random);
        }
    }
}

/// How many entries of y Forward may meet; it ends above the last row.
fn forward_rows(arguments: &Arguments) -> usize {
    (arguments.n as usize - 1).max(1)
}

pub fn put_at_forward(arguments: &Arguments, buffers: &mut Buffers, random: &mut Random) {
    let rows = forward_rows(arguments);
    let u = buffers[Name::U].slice();
    let pivots: Vec<_> = diagonal(arguments.stride(), rows)
        .map(|place| u[place])
        .collect();
    let y = &mut buffers[Name::Y].slice_mut()[..rows];
    guards::at_forward(y, &pivots, ZERO_BASED, random);
}

fn put_at_pivot(arguments: &Arguments, buffers: &mut Buffers, random: &mut Random) {
    let [_, u, y, ..] = buffers.slices_mut();
    let y = &mut y[..forward_rows(arguments)];
    guards::at_pivot(y, u, arguments.stride(), ZERO_BASED, random);
}

pub fn put_at_backward(arguments: &Arguments, buffers: &mut Buffers, random: &mut Random) {
    let values = &mut buffers[Name::Z].slice_mut()[..arguments.n as usize];
    guards::at_backward(values, ZERO_BASED, random);
}
