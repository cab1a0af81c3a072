//! Where the factors stand in their buffers.

use crate::buffers::Name;

/// Where L(i,j) is.
pub fn l_place(stride: usize, i: usize, j: usize) -> usize {
    i * stride + j
}

/// Where U(i,j), i <= j, is: after the rows above, each one shorter than the last.
pub fn u_place(stride: usize, i: usize, j: usize) -> usize {
    (0..i).map(|row| stride - row).sum::<usize>() + (j - i)
}

/// The places of column `column` of L at dimension n.
pub fn l_column(stride: usize, n: usize, column: usize) -> impl Iterator<Item = usize> {
    (0..n).map(move |row| l_place(stride, row, column))
}

/// The places of column `column` of U, down to the diagonal.
pub fn u_column(stride: usize, column: usize) -> impl Iterator<Item = usize> {
    (0..=column).map(move |row| u_place(stride, row, column))
}

/// The places of U's diagonal at dimension n.
pub fn diagonal(stride: usize, n: usize) -> impl Iterator<Item = usize> {
    (0..n).map(move |row| u_place(stride, row, row))
}

/// The places of the active entries at dimension n.
pub fn active(stride: usize, n: usize) -> impl Iterator<Item = (Name, usize)> {
    let l = move |i| (0..n).map(move |j| (Name::L, l_place(stride, i, j)));
    let u = move |i| (i..n).map(move |j| (Name::U, u_place(stride, i, j)));
    (0..n).flat_map(move |i| l(i).chain(u(i)))
}
