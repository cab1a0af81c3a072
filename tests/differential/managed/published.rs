//! The published Rust, called with what the archive is called with.

use std::panic::{catch_unwind, AssertUnwindSafe};

use rlumod::api::{
    storage_lengths, ColumnIndex, LuMod, RowIndex, SolveError, StorageError, UpdateError, Workspace,
};

use super::answer::{Answer, Outputs};
use super::call::{Call, Function, Instance};

/// Makes the call in the Rust. None: the Rust panicked.
pub fn call_rust(call: &Call, instance: &mut Instance, outputs: Outputs) -> Option<Answer> {
    let mut outputs = outputs.of(instance);
    let made = catch_unwind(AssertUnwindSafe(|| match call.function {
        Function::StorageLengths => lengths(instance.c, &mut outputs),
        Function::Ready => ready(instance.clone(), &mut outputs),
        _ => on_factors(call, instance, &mut outputs),
    }));
    instance.n = outputs.n;
    let number = made.ok()?.err().unwrap_or(0);
    Some(Answer { number, outputs })
}

/// An error is document 01's number, here and below: 3 for InsufficientStorage.
fn lengths(capacity: usize, outputs: &mut Outputs) -> Result<(), u32> {
    let lengths = storage_lengths(capacity).map_err(storage_number)?;
    (outputs.l, outputs.u) = (lengths.l, lengths.u);
    Ok(())
}

/// The Rust has no such call: the factors are ready if a solve of zeros is accepted and gives
/// zeros. It multiplies a zero by every active entry of L and by every one of U above the
/// diagonal, and an infinity or a NaN among them leaves a NaN.
fn ready(mut copy: Instance, outputs: &mut Outputs) -> Result<(), u32> {
    let [l, u, ..] = copy.buffers.slices_mut();
    let factors = LuMod::from_storage(copy.n, copy.c, l, u).map_err(storage_number)?;
    let mut solution = vec![0.0; copy.n];
    let solved = factors.solve_in_place(&mut solution);
    let zeros = solution.iter().all(|&value| value == 0.0);
    outputs.ready = u8::from(solved.is_ok() && zeros);
    Ok(())
}

/// Adopts the storage, as every other call does first.
fn on_factors(call: &Call, instance: &mut Instance, outputs: &mut Outputs) -> Result<(), u32> {
    let [l, u, y, z, w, row, column, rhs] = instance.buffers.slices_mut();
    let mut factors = LuMod::from_storage(instance.n, instance.c, l, u).map_err(storage_number)?;
    if call.function.is_update() {
        let workspace = Workspace::new(y, z, w).map_err(storage_number)?;
        let updated = update(call, &mut factors, workspace, (row, column), outputs);
        outputs.n = factors.dimension();
        return updated.map_err(update_number);
    }
    let solved = match call.function {
        Function::Solve => factors.solve_in_place(rhs),
        Function::SolveTranspose => factors.solve_transpose_in_place(rhs),
        _ => Ok(()),
    };
    solved.map_err(|error| solve_number(error, outputs))
}

fn update(
    call: &Call,
    factors: &mut LuMod<f64>,
    mut workspace: Workspace<f64>,
    (row, column): (&[f64], &[f64]),
    outputs: &mut Outputs,
) -> Result<(), UpdateError> {
    let (row_index, column_index) = (RowIndex(call.row), ColumnIndex(call.column));
    let workspace = &mut workspace;
    match call.function {
        Function::Push => factors.push(row, column, call.diagonal, workspace),
        Function::ReplaceRow => factors.replace_row(row_index, row, workspace),
        Function::ReplaceColumn => factors.replace_column(column_index, column, workspace),
        _ => {
            let removal = factors.remove(row_index, column_index, workspace)?;
            outputs.moved_row = removal.moved_row.map_or(usize::MAX, |row| row.0);
            outputs.moved_column = removal.moved_column.map_or(usize::MAX, |column| column.0);
            Ok(())
        }
    }
}

fn storage_number(error: StorageError) -> u32 {
    match error {
        StorageError::InvalidDimension => 1,
        StorageError::SizeOverflow => 2,
        StorageError::InsufficientStorage => 3,
        _ => u32::MAX,
    }
}

fn update_number(error: UpdateError) -> u32 {
    match error {
        UpdateError::CapacityExceeded => 4,
        UpdateError::RowOutOfBounds => 5,
        UpdateError::ColumnOutOfBounds => 6,
        UpdateError::LengthMismatch => 7,
        UpdateError::InsufficientWorkspace => 8,
        _ => u32::MAX,
    }
}

fn solve_number(error: SolveError, outputs: &mut Outputs) -> u32 {
    let (number, index) = match error {
        SolveError::LengthMismatch => return 7,
        SolveError::Singular { index } => (9, index),
        SolveError::NonFiniteDiagonal { index } => (10, index),
        _ => return u32::MAX,
    };
    outputs.index = index;
    number
}
