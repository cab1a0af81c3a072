//! Document 01's bench table by the managed calls: compared with the Rust as all
//! calls are, and with the table's own values.

use super::answer::Answer;
use super::call::{Call, Function, Instance, DATA};
use super::comparison::{Comparison, Sides};
use crate::bench_table::{check, rows, Factors, Found, Interface, Left, Operation, Row};
use crate::bench_table::{LENGTHS, PLACES};
use crate::buffers::{Buffer, Name};
use crate::calls::End;
use crate::places::u_place;
use crate::random::Random;

/// The Rust's, then the archive's. The largest dimension of a row is 4.
const CAPACITIES: [usize; 3] = [5, 4, 7];

/// Gives how many rows there are.
pub fn play(random: &mut Random, comparison: &mut Comparison) -> Result<usize, End> {
    for (c, lengths) in LENGTHS {
        play_lengths(c, lengths, random, comparison)?;
    }
    for (i, j, place) in PLACES {
        let found = u_place(3, i, j);
        if found != place {
            return differs(&format!("U({i},{j}) at capacity 3"), &found.to_string());
        }
    }
    let mut played = LENGTHS.len() + PLACES.len();
    for row in rows(Interface::Managed) {
        play_row(&row, random, comparison)?;
        played += 1;
    }
    Ok(played)
}

fn differs<T>(row: &str, what: &str) -> Result<T, End> {
    println!("difference in the bench table's row '{row}': {what}");
    Err(End::Differs)
}

fn play_lengths(
    c: usize,
    lengths: Option<(usize, usize)>,
    random: &mut Random,
    comparison: &mut Comparison,
) -> Result<(), End> {
    let call = Call::of(Function::StorageLengths);
    let mut sides = Sides::alone(Instance::new(0, 0, random));
    for instance in sides.archive.iter_mut().chain([&mut sides.rust]) {
        instance.c = c;
    }
    let Answer { number, outputs } = comparison.answer(&call, &mut sides, random)?;
    let found = (number == 0).then_some((outputs.l, outputs.u));
    if found != lengths || !matches!(number, 0 | 2) {
        let what = format!("the archive answered {number}, lengths {found:?}");
        return differs(&format!("c = {c}"), &what);
    }
    Ok(())
}

fn play_row(row: &Row, random: &mut Random, comparison: &mut Comparison) -> Result<(), End> {
    let [rust, archive @ ..] = CAPACITIES.map(|c| holding(&row.start.factors, c, random));
    let mut sides = Sides {
        rust,
        archive: archive.to_vec(),
    };
    let mut answer = None;
    for operation in row.calls() {
        let call = lend(operation, &mut sides, random);
        answer = Some(comparison.answer(&call, &mut sides, random)?);
    }
    let Answer { number, outputs } = answer.expect("a row has a call");
    let refused = |left: &Left| matches!(left, Left::Refused(..));
    if number != 0 && !row.left.iter().any(refused) {
        return differs(row.what, &format!("the archive answered {number}"));
    }
    check(row, row.left.iter(), |left, changed| match *left {
        Left::Refused(number_there, index) => differing(
            (number, outputs.index),
            (number_there, index + usize::from(changed)),
        ),
        Left::Moved(moved_row, column) => {
            let [moved_row, column] = [moved_row, column].map(|index| index.unwrap_or(usize::MAX));
            differing(
                (outputs.moved_row, outputs.moved_column),
                (moved_row, column.wrapping_add(usize::from(changed))),
            )
        }
        _ => sides.archive.iter().find_map(|instance| {
            let found = Found {
                n: instance.n,
                stride: instance.c,
                buffers: &instance.buffers,
                solved: instance.buffers[Name::RightHandSide].slice(),
            };
            found.difference(left, changed)
        }),
    })
}

fn differing<T: PartialEq + std::fmt::Debug>(found: T, expected: T) -> Option<String> {
    let what = format!("the archive answered {found:?}, the table has {expected:?}");
    (found != expected).then_some(what)
}

/// The factors at a capacity, and all else unused. The counter is at 0.
fn holding(factors: &Factors, c: usize, random: &mut Random) -> Instance {
    let mut instance = Instance::new(factors.n, c, random);
    instance.counter = 0;
    factors.write(&mut instance.buffers, c);
    instance
}

/// The call, with its data and new workspaces lent to every side.
fn lend(operation: &Operation, sides: &mut Sides, random: &mut Random) -> Call {
    let mut data: [&[f64]; DATA.len()] = [&[]; DATA.len()];
    let mut call = Call::of(Function::Solve);
    match *operation {
        Operation::Push {
            row,
            column,
            diagonal,
        } => {
            (call.function, call.diagonal) = (Function::Push, diagonal);
            (data[0], data[1]) = (row, column);
        }
        Operation::ReplaceRow { row, values } => {
            (call.function, call.row, data[0]) = (Function::ReplaceRow, row, values);
        }
        Operation::ReplaceColumn { column, values } => {
            (call.function, call.column, data[1]) = (Function::ReplaceColumn, column, values);
        }
        Operation::Remove { row, column } => {
            (call.function, call.row, call.column) = (Function::Remove, row, column);
        }
        Operation::Solve(values) => data[2] = values,
        Operation::SolveTranspose(values) => {
            (call.function, data[2]) = (Function::SolveTranspose, values);
        }
    }
    for instance in sides.archive.iter_mut().chain([&mut sides.rust]) {
        for (name, values) in DATA.into_iter().zip(data) {
            instance.buffers[name] = Buffer::holding(values, random);
        }
        let length = call.function.workspace_length(instance.n) as usize;
        instance.lend_workspaces(length, random);
    }
    call
}
