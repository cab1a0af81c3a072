//! The archive's managed calls.

use super::answer::{Answer, Outputs};
use super::call::{Call, Function, Instance};
use super::declarations::*;

/// Makes the call in the archive.
pub fn call_archive(call: &Call, instance: &mut Instance, outputs: Outputs) -> Answer {
    let mut outputs = outputs.of(instance);
    let number = if call.function.is_update() {
        call_update(call, instance, &mut outputs)
    } else {
        call_other(call, instance, &mut outputs)
    };
    (instance.n, instance.counter) = (outputs.n, outputs.counter);
    Answer { number, outputs }
}

#[rustfmt::skip]
fn call_update(call: &Call, instance: &mut Instance, outputs: &mut Outputs) -> u32 {
    let Instance { n, c, ref mut buffers, .. } = *instance;
    let Outputs { counter, steps, index, .. } = outputs;
    let [l, u, y, z, w, row, column, _] = buffers.slices_mut();
    let (l, l_len, u, u_len) = (l.as_mut_ptr(), l.len(), u.as_mut_ptr(), u.len());
    let (y, y_len, z, z_len) = (y.as_mut_ptr(), y.len(), z.as_mut_ptr(), z.len());
    let (w, w_len) = (w.as_mut_ptr(), w.len());
    // SAFETY: every pointer comes with the length of its own slice, and the slices are apart.
    unsafe {
        match call.function {
            Function::Push => lumod_push(
                &mut outputs.n, c, l, l_len, u, u_len, y, y_len, z, z_len, w, w_len,
                row.as_ptr(), row.len(), column.as_ptr(), column.len(), call.diagonal,
                counter, steps, index,
            ),
            Function::ReplaceRow => lumod_replace_row(
                n, c, l, l_len, u, u_len, y, y_len, z, z_len, w, w_len,
                call.row, row.as_ptr(), row.len(), counter, steps, index,
            ),
            Function::ReplaceColumn => lumod_replace_column(
                n, c, l, l_len, u, u_len, y, y_len, z, z_len, w, w_len,
                call.column, column.as_ptr(), column.len(), counter, steps, index,
            ),
            _ => lumod_remove(
                &mut outputs.n, c, l, l_len, u, u_len, y, y_len, z, z_len, w, w_len,
                call.row, call.column, &mut outputs.moved_row, &mut outputs.moved_column,
                counter, steps,
            ),
        }
    }
}

#[rustfmt::skip]
fn call_other(call: &Call, instance: &mut Instance, outputs: &mut Outputs) -> u32 {
    let Instance { n, c, ref mut buffers, .. } = *instance;
    let [l, u, .., rhs] = buffers.slices_mut();
    let (l, l_len, u, u_len) = (l.as_mut_ptr(), l.len(), u.as_ptr(), u.len());
    let (rhs, rhs_len) = (rhs.as_mut_ptr(), rhs.len());
    // SAFETY: as above.
    unsafe {
        match call.function {
            Function::StorageLengths => lumod_storage_lengths(c, &mut outputs.l, &mut outputs.u),
            Function::FromStorage => lumod_from_storage(n, c, l, l_len, u, u_len),
            Function::Solve => {
                lumod_solve(n, c, l, l_len, u, u_len, rhs, rhs_len, &mut outputs.index)
            }
            Function::SolveTranspose => {
                lumod_solve_transpose(n, c, l, l_len, u, u_len, rhs, rhs_len, &mut outputs.index)
            }
            _ => lumod_ready(n, c, l, l_len, u, u_len, &mut outputs.ready),
        }
    }
}
