//! The managed calls that the archive exports, as include/lumod.h declares them.

#[rustfmt::skip]
extern "C" {
    pub fn lumod_storage_lengths(capacity: usize, l: *mut usize, u: *mut usize) -> u32;
    pub fn lumod_from_storage(
        n: usize, c: usize, l: *const f64, l_len: usize, u: *const f64, u_len: usize,
    ) -> u32;
    pub fn lumod_push(
        n: *mut usize, c: usize, l: *mut f64, l_len: usize, u: *mut f64, u_len: usize,
        y: *mut f64, y_len: usize, z: *mut f64, z_len: usize, w: *mut f64, w_len: usize,
        row: *const f64, row_len: usize, column: *const f64, column_len: usize, diagonal: f64,
        counter: *mut usize, steps: *mut usize, index: *mut usize,
    ) -> u32;
    pub fn lumod_replace_row(
        n: usize, c: usize, l: *mut f64, l_len: usize, u: *mut f64, u_len: usize,
        y: *mut f64, y_len: usize, z: *mut f64, z_len: usize, w: *mut f64, w_len: usize,
        row: usize, values: *const f64, values_len: usize,
        counter: *mut usize, steps: *mut usize, index: *mut usize,
    ) -> u32;
    pub fn lumod_replace_column(
        n: usize, c: usize, l: *mut f64, l_len: usize, u: *mut f64, u_len: usize,
        y: *mut f64, y_len: usize, z: *mut f64, z_len: usize, w: *mut f64, w_len: usize,
        column: usize, values: *const f64, values_len: usize,
        counter: *mut usize, steps: *mut usize, index: *mut usize,
    ) -> u32;
    pub fn lumod_remove(
        n: *mut usize, c: usize, l: *mut f64, l_len: usize, u: *mut f64, u_len: usize,
        y: *mut f64, y_len: usize, z: *mut f64, z_len: usize, w: *mut f64, w_len: usize,
        row: usize, column: usize, moved_row: *mut usize, moved_column: *mut usize,
        counter: *mut usize, steps: *mut usize,
    ) -> u32;
    pub fn lumod_solve(
        n: usize, c: usize, l: *mut f64, l_len: usize, u: *const f64, u_len: usize,
        rhs: *mut f64, rhs_len: usize, index: *mut usize,
    ) -> u32;
    pub fn lumod_solve_transpose(
        n: usize, c: usize, l: *mut f64, l_len: usize, u: *const f64, u_len: usize,
        rhs: *mut f64, rhs_len: usize, index: *mut usize,
    ) -> u32;
    pub fn lumod_ready(
        n: usize, c: usize, l: *const f64, l_len: usize, u: *const f64, u_len: usize,
        ready: *mut u8,
    ) -> u32;
}
