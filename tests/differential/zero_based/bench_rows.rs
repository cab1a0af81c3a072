//! Document 01's bench table by the zero-based calls: compared with the Rust as
//! all calls are, and with the table's own values. Left out are the rows about an
//! answer, since these calls move nothing by name and test no diagonal.

use super::arguments::{Arguments, Function};
use super::comparison::Comparison;
use super::limits::lengths;
use crate::bench_table::{check, rows, Factors, Found, Interface, Left, Operation, Row};
use crate::buffers::{Buffer, Buffers, Name, VECTORS};
use crate::calls::End;
use crate::random::Random;

/// The largest dimension of a row is 4.
const STRIDE: usize = 5;

/// A dimension and storage between the calls of a row, and the last solved vector.
struct Storage {
    n: usize,
    buffers: Buffers,
    solved: Vec<f64>,
}

/// Gives how many rows there are.
pub fn play(random: &mut Random, comparison: &mut Comparison) -> Result<usize, End> {
    let mut played = 0;
    for row in rows(Interface::ZeroBased).filter(fits) {
        play_row(&row, random, comparison)?;
        played += 1;
    }
    Ok(played)
}

fn fits(row: &Row) -> bool {
    let refused = |left: &Left| matches!(left, Left::Refused(..));
    !row.left.iter().any(refused) && !row.left.iter().all(is_moved)
}

fn is_moved(left: &Left) -> bool {
    matches!(left, Left::Moved(..))
}

fn play_row(row: &Row, random: &mut Random, comparison: &mut Comparison) -> Result<(), End> {
    let mut storage = Storage::holding(&row.start.factors, random);
    for operation in row.calls() {
        storage.call(operation, random, comparison)?;
    }
    let found = Found {
        n: storage.n,
        stride: STRIDE,
        buffers: &storage.buffers,
        solved: &storage.solved,
    };
    let left = row.left.iter().filter(|left| !is_moved(left));
    check(row, left, |left, changed| found.difference(left, changed))
}

impl Storage {
    fn holding(factors: &Factors, random: &mut Random) -> Self {
        let mut buffers = Buffers::new(lengths(STRIDE, STRIDE, random), random);
        factors.write(&mut buffers, STRIDE);
        Self {
            n: factors.n,
            buffers,
            solved: vec![],
        }
    }

    fn call(
        &mut self,
        operation: &Operation,
        random: &mut Random,
        comparison: &mut Comparison,
    ) -> Result<(), End> {
        let mut make = |function, mode, indices, y: &[f64], z: &[f64]| {
            self.make(function, mode, indices, [y, z], random, comparison)
        };
        match *operation {
            Operation::Push {
                row,
                column,
                diagonal,
            } => {
                let y = [row, &[diagonal]].concat();
                make(Function::LUmod, 1, (0, 0), &y, column)
            }
            Operation::ReplaceColumn { column, values } => {
                make(Function::LUmod, 2, (0, column), &[], values)
            }
            Operation::ReplaceRow { row, values } => {
                make(Function::LUmod, 3, (row, 0), values, &[])
            }
            Operation::Remove { row, column } => make(Function::LUmod, 4, (row, column), &[], &[]),
            Operation::Solve(values) => {
                make(Function::Lprod, 1, (0, 0), values, &[])?;
                let product = self.product();
                self.make(
                    Function::Usolve,
                    1,
                    (0, 0),
                    [&product, &[]],
                    random,
                    comparison,
                )?;
                self.solved = self.buffers[Name::Y].slice()[..self.n].to_vec();
                Ok(())
            }
            Operation::SolveTranspose(values) => {
                make(Function::Usolve, 2, (0, 0), values, &[])?;
                let solved = self.buffers[Name::Y].slice()[..self.n].to_vec();
                self.make(
                    Function::Lprod,
                    2,
                    (0, 0),
                    [&solved, &[]],
                    random,
                    comparison,
                )?;
                self.solved = self.product();
                Ok(())
            }
        }
    }

    fn product(&self) -> Vec<f64> {
        self.buffers[Name::Z].slice()[..self.n].to_vec()
    }

    /// One call of a mode, with what y and z hold at their beginnings.
    fn make(
        &mut self,
        function: Function,
        mode: i32,
        (krow, kcol): (usize, usize),
        data: [&[f64]; 2],
        random: &mut Random,
        comparison: &mut Comparison,
    ) -> Result<(), End> {
        let pushes = function == Function::LUmod && mode == 1;
        let arguments = Arguments {
            function,
            mode,
            maxmod: STRIDE as i32,
            n: self.n as i32 + i32::from(pushes),
            krow: krow as i32,
            kcol: kcol as i32,
        };
        for name in VECTORS {
            self.buffers[name] = Buffer::new(STRIDE, random);
        }
        for (name, values) in [Name::Y, Name::Z].into_iter().zip(data) {
            self.buffers[name].slice_mut()[..values.len()].copy_from_slice(values);
        }
        self.buffers = comparison.call(&arguments, &self.buffers)?;
        if function == Function::LUmod {
            self.n = arguments.dimension_after();
        }
        Ok(())
    }
}
