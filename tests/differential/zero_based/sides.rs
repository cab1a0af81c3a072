//! The two sides of a zero-based call: the archive, and the published Rust.

use std::panic::{catch_unwind, AssertUnwindSafe};

use super::arguments::{Arguments, Function};
use crate::buffers::Buffers;

#[rustfmt::skip]
extern "C" {
    fn LUmod(
        mode: i32, maxmod: i32, n: i32, krow: i32, kcol: i32,
        l: *mut f64, l_len: usize, u: *mut f64, u_len: usize,
        y: *mut f64, y_len: usize, z: *mut f64, z_len: usize, w: *mut f64, w_len: usize,
    ) -> u32;
    fn Lprod(
        mode: i32, maxmod: i32, n: i32,
        l: *mut f64, l_len: usize, y: *mut f64, y_len: usize, z: *mut f64, z_len: usize,
    ) -> u32;
    fn Usolve(
        mode: i32, maxmod: i32, n: i32, u: *mut f64, u_len: usize, y: *mut f64, y_len: usize,
    ) -> u32;
}

/// Makes the call in the archive and gives the number that it returned.
#[rustfmt::skip]
pub fn call_archive(arguments: &Arguments, buffers: &mut Buffers) -> u32 {
    let Arguments { function, mode, maxmod, n, krow, kcol } = *arguments;
    let [l, u, y, z, w, ..] = buffers.slices_mut();
    // SAFETY: every pointer comes with the length of its own slice, and the slices are apart.
    unsafe {
        match function {
            Function::LUmod => LUmod(
                mode, maxmod, n, krow, kcol,
                l.as_mut_ptr(), l.len(), u.as_mut_ptr(), u.len(),
                y.as_mut_ptr(), y.len(), z.as_mut_ptr(), z.len(), w.as_mut_ptr(), w.len(),
            ),
            Function::Lprod => Lprod(
                mode, maxmod, n,
                l.as_mut_ptr(), l.len(), y.as_mut_ptr(), y.len(), z.as_mut_ptr(), z.len(),
            ),
            Function::Usolve => Usolve(
                mode, maxmod, n, u.as_mut_ptr(), u.len(), y.as_mut_ptr(), y.len(),
            ),
        }
    }
}

/// Makes the call in the Rust. False: the Rust panicked.
pub fn call_rust(arguments: &Arguments, buffers: &mut Buffers) -> bool {
    let Arguments {
        mode, maxmod, n, ..
    } = *arguments;
    let (krow, kcol) = (arguments.krow, arguments.kcol);
    let [l, u, y, z, w, ..] = buffers.slices_mut();
    catch_unwind(AssertUnwindSafe(|| match arguments.function {
        Function::LUmod => rlumod::lumod_c::LUmod(mode, maxmod, n, krow, kcol, l, u, y, z, w),
        Function::Lprod => rlumod::lumod_c::Lprod(mode, maxmod, n, l, y, z),
        Function::Usolve => rlumod::lumod_c::Usolve(mode, maxmod, n, u, y),
    }))
    .is_ok()
}
