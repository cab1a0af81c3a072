//! An archive's side.

use super::declarations::*;
use crate::inputs::Case;
use crate::sides::Factors;

/// Storage as it is lent to each call.
pub struct Storage<'a> {
    n: usize,
    capacity: usize,
    l: &'a mut [f64],
    u: &'a mut [f64],
    counter: usize,
}

pub struct Workspaces<'a> {
    y: &'a mut [f64],
    z: &'a mut [f64],
    w: &'a mut [f64],
}

// SAFETY, of all calls: every pointer comes with the length of its own slice or leads to a number
// of its own, and the slices are apart.
#[rustfmt::skip]
impl<'a> Factors<'a> for Storage<'a> {
    type Workspace = Workspaces<'a>;

    fn adopt(n: usize, capacity: usize, l: &'a mut [f64], u: &'a mut [f64]) -> Self {
        Self { n, capacity, l, u, counter: 0 }
    }

    fn workspace(y: &'a mut [f64], z: &'a mut [f64], w: &'a mut [f64]) -> Self::Workspace {
        Workspaces { y, z, w }
    }

    fn push(&mut self, case: &Case, workspace: &mut Self::Workspace) -> bool {
        let Self { n, capacity, l, u, counter } = self;
        let Workspaces { y, z, w } = workspace;
        let (row, column) = (&case.row_data, &case.column_data);
        0 == unsafe {
            lumod_push(
                n, *capacity, l.as_mut_ptr(), l.len(), u.as_mut_ptr(), u.len(),
                y.as_mut_ptr(), y.len(), z.as_mut_ptr(), z.len(), w.as_mut_ptr(), w.len(),
                row.as_ptr(), row.len(), column.as_ptr(), column.len(), case.diagonal,
                counter, &mut 0, &mut 0,
            )
        }
    }

    fn replace_row(&mut self, case: &Case, workspace: &mut Self::Workspace) -> bool {
        let Self { n, capacity, l, u, counter } = self;
        let Workspaces { y, z, w } = workspace;
        0 == unsafe {
            lumod_replace_row(
                *n, *capacity, l.as_mut_ptr(), l.len(), u.as_mut_ptr(), u.len(),
                y.as_mut_ptr(), y.len(), z.as_mut_ptr(), z.len(), w.as_mut_ptr(), w.len(),
                case.row, case.row_data.as_ptr(), case.row_data.len(), counter, &mut 0, &mut 0,
            )
        }
    }

    fn replace_column(&mut self, case: &Case, workspace: &mut Self::Workspace) -> bool {
        let Self { n, capacity, l, u, counter } = self;
        let Workspaces { y, z, w } = workspace;
        0 == unsafe {
            lumod_replace_column(
                *n, *capacity, l.as_mut_ptr(), l.len(), u.as_mut_ptr(), u.len(),
                y.as_mut_ptr(), y.len(), z.as_mut_ptr(), z.len(), w.as_mut_ptr(), w.len(),
                case.column, case.column_data.as_ptr(), case.column_data.len(),
                counter, &mut 0, &mut 0,
            )
        }
    }

    fn remove(&mut self, case: &Case, workspace: &mut Self::Workspace) -> bool {
        let Self { n, capacity, l, u, counter } = self;
        let Workspaces { y, z, w } = workspace;
        let (mut moved_row, mut moved_column) = (0, 0);
        let number = unsafe {
            lumod_remove(
                n, *capacity, l.as_mut_ptr(), l.len(), u.as_mut_ptr(), u.len(),
                y.as_mut_ptr(), y.len(), z.as_mut_ptr(), z.len(), w.as_mut_ptr(), w.len(),
                case.row, case.column, &mut moved_row, &mut moved_column, counter, &mut 0,
            )
        };
        let expected_row = case.removal.moved_row.map_or(usize::MAX, |row| row.0);
        let expected_column = case.removal.moved_column.map_or(usize::MAX, |column| column.0);
        number == 0 && moved_row == expected_row && moved_column == expected_column
    }

    fn solve(&mut self, rhs: &mut [f64]) -> bool {
        let Self { n, capacity, l, u, .. } = self;
        0 == unsafe {
            lumod_solve(
                *n, *capacity, l.as_mut_ptr(), l.len(), u.as_ptr(), u.len(),
                rhs.as_mut_ptr(), rhs.len(), &mut 0,
            )
        }
    }

    fn solve_transpose(&mut self, rhs: &mut [f64]) -> bool {
        let Self { n, capacity, l, u, .. } = self;
        0 == unsafe {
            lumod_solve_transpose(
                *n, *capacity, l.as_mut_ptr(), l.len(), u.as_ptr(), u.len(),
                rhs.as_mut_ptr(), rhs.len(), &mut 0,
            )
        }
    }

    fn ready(&mut self, _: &mut [f64]) -> bool {
        let Self { n, capacity, l, u, .. } = self;
        let mut ready = 0;
        let number = unsafe {
            lumod_ready(*n, *capacity, l.as_ptr(), l.len(), u.as_ptr(), u.len(), &mut ready)
        };
        number == 0 && ready == 1
    }
}
