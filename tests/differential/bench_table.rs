//! Document 01's bench table, row by row, with the values that it gives; then the
//! calls of the lines beside it (`TrapTable` in crates/machine/specs/BenchTable.antt);
//! then calls with infinities and NaNs. Its rows on pairs are calls whose one pair step
//! has that pair.

use crate::buffers::{Buffers, Name};
use crate::calls::End;
use crate::places::{active, u_place};

use Left::*;
use Operation::*;

const NAN: f64 = f64::NAN;
const INFINITY: f64 = f64::INFINITY;

/// 8191 × 2^-65, which lies between the two E's.
const BETWEEN: f64 = 8191.0 / (1u128 << 65) as f64;

/// A dimension with all active entries, L's and U's, row by row.
#[derive(Clone, Copy)]
pub struct Factors {
    pub n: usize,
    pub l: &'static [f64],
    pub u: &'static [f64],
}

impl Factors {
    /// Writes the entries to their places.
    pub fn write(&self, buffers: &mut Buffers, stride: usize) {
        let (mut l, mut u) = (self.l.iter(), self.u.iter());
        for (name, place) in active(stride, self.n) {
            let values = if name == Name::L { &mut l } else { &mut u };
            let value = values.next().expect("every active entry is given");
            buffers[name].slice_mut()[place] = *value;
        }
    }
}

#[derive(Clone, Copy)]
#[rustfmt::skip]
pub enum Operation {
    Push { row: &'static [f64], column: &'static [f64], diagonal: f64 },
    ReplaceRow { row: usize, values: &'static [f64] },
    ReplaceColumn { column: usize, values: &'static [f64] },
    Remove { row: usize, column: usize },
    Solve(&'static [f64]),
    SolveTranspose(&'static [f64]),
}

/// What the table says of a call.
#[derive(Clone, Copy)]
pub enum Left {
    All(Factors),
    /// One entry of U: its row, its column, its value.
    EntryOfU(usize, usize, f64),
    Solved(&'static [f64]),
    /// A number with an index.
    Refused(u32, usize),
    /// The row and the column that remove moved.
    Moved(Option<usize>, Option<usize>),
}

/// Factors, and the calls that are made on them first.
#[derive(Clone, Copy)]
pub struct Start {
    pub factors: Factors,
    pub calls: &'static [Operation],
}

#[derive(Clone, Copy, PartialEq)]
pub enum Interface {
    Both,
    Managed,
    ZeroBased,
}

#[derive(Clone, Copy)]
pub struct Row {
    pub what: &'static str,
    pub interface: Interface,
    pub start: Start,
    pub call: Operation,
    pub left: &'static [Left],
}

impl Row {
    /// All its calls, the one that the table is about last.
    pub fn calls(&self) -> impl Iterator<Item = &Operation> {
        self.start.calls.iter().chain([&self.call])
    }
}

/// Capacities with the lengths that they need, or none: then the answer is 2.
pub const LENGTHS: [(usize, Option<(usize, usize)>); 5] = [
    (0, Some((0, 0))),
    (1, Some((2, 1))),
    (4, Some((20, 10))),
    (
        4294967295,
        Some((18446744069414584320, 18446744069414584320 / 2)),
    ),
    (4294967296, None),
];

/// Where entries of U are at capacity 3: row, column, place.
pub const PLACES: [(usize, usize, usize); 3] = [(1, 1, 3), (1, 2, 4), (2, 2, 5)];

const fn factors(n: usize, l: &'static [f64], u: &'static [f64]) -> Factors {
    Factors { n, l, u }
}

const fn pushes(calls: &'static [Operation]) -> Start {
    let factors = factors(0, &[], &[]);
    Start { factors, calls }
}

const fn holding(factors: Factors) -> Start {
    Start {
        factors,
        calls: &[],
    }
}

const fn first(diagonal: f64) -> Operation {
    Push {
        row: &[],
        column: &[],
        diagonal,
    }
}

const fn second(row: &'static [f64], column: &'static [f64]) -> Operation {
    Push {
        row,
        column,
        diagonal: 1.0,
    }
}

const fn row(what: &'static str, start: Start, call: Operation, left: &'static [Left]) -> Row {
    Row {
        what,
        interface: Interface::Both,
        start,
        call,
        left,
    }
}

const fn managed(row: Row) -> Row {
    Row {
        interface: Interface::Managed,
        ..row
    }
}

const fn zero_based(row: Row) -> Row {
    Row {
        interface: Interface::ZeroBased,
        ..row
    }
}

const TWO: Start = pushes(&[first(2.0)]);
const TWO_LEFT: Factors = factors(1, &[1.0], &[2.0]);
const P: Start = pushes(&[first(2.0), second(&[4.0], &[6.0])]);
const Q: Start = pushes(&[first(2.0), second(&[1.0], &[6.0])]);
const M: Start = holding(factors(
    3,
    &[0.0, 2.0, 0.0, 0.0, -1.0, -1.0, 3.0, -2.0, 2.0],
    &[2.0, -2.0, 1.0, 2.0, 2.0, 0.0],
));
/// L's column 1 ends in a zero, which Backward trims.
const TRIMMED: Start = holding(factors(
    3,
    &[-2.0, -1.0, 0.0, 4.0, -2.0, -2.0, -1.0, 0.0, -1.0],
    &[-2.0, 2.0, 4.0, -1.0, -4.0, 1.0],
));
const IDENTITY_3: Start = holding(factors(
    3,
    &[1.0, 0.0, 0.0, 0.0, 1.0, 0.0, 0.0, 0.0, 1.0],
    &[1.0, 0.0, 0.0, 1.0, 0.0, 1.0],
));
#[rustfmt::skip]
const IDENTITY_4: Start = holding(factors(
    4,
    &[1.0, 0.0, 0.0, 0.0, 0.0, 1.0, 0.0, 0.0, 0.0, 0.0, 1.0, 0.0, 0.0, 0.0, 0.0, 1.0],
    &[1.0, 0.0, 0.0, 0.0, 1.0, 0.0, 0.0, 1.0, 0.0, 1.0],
));
/// L's column 0 is 0, NaN.
const NAN_IN_L: Start = holding(factors(2, &[0.0, 1.0, NAN, 0.0], &[2.0, 1.0, 3.0]));
const NAN_ON_DIAGONAL: Start = holding(factors(1, &[1.0], &[NAN]));
const NAN_BESIDE_DIAGONAL: Start = holding(factors(2, &[1.0, 0.0, 0.0, 1.0], &[2.0, NAN, 3.0]));
/// An L product has a NaN at 1.
const NAN_IN_PRODUCT: Start = holding(factors(
    3,
    &[1.0, 0.0, 0.0, 0.0, NAN, 0.0, 0.0, 0.0, 1.0],
    &[1.0, 0.0, 0.0, 1.0, 0.0, 1.0],
));

const TABLE: [Row; 11] = [
    row(
        "pair 4, 2",
        pushes(&[first(4.0)]),
        second(&[2.0], &[0.0]),
        &[All(factors(2, &[1.0, 0.0, -0.5, 1.0], &[4.0, 0.0, 1.0]))],
    ),
    row(
        "pair 1, -2",
        pushes(&[first(1.0)]),
        second(&[-2.0], &[0.0]),
        &[All(factors(2, &[0.0, 1.0, 1.0, 0.5], &[-2.0, 1.0, 0.5]))],
    ),
    row(
        "pair 3, -3",
        pushes(&[first(3.0)]),
        second(&[-3.0], &[0.0]),
        &[All(factors(2, &[1.0, 0.0, 1.0, 1.0], &[3.0, 0.0, 1.0]))],
    ),
    row(
        "pair NaN, 0",
        NAN_IN_L,
        ReplaceRow {
            row: 0,
            values: &[0.0, 5.0],
        },
        &[All(factors(2, &[0.0, 1.0, 1.0, 0.0], &[2.0, 1.0, 5.0]))],
    ),
    row(
        "empty, push d 2, push row (4), column (6), d 1: P",
        TWO,
        second(&[4.0], &[6.0]),
        &[All(factors(2, &[0.0, 1.0, 1.0, -0.5], &[4.0, 1.0, 5.5]))],
    ),
    row(
        "P, solve (8,5)",
        P,
        Solve(&[8.0, 5.0]),
        &[Solved(&[1.0, 1.0])],
    ),
    row(
        "P, transpose solve (6,7)",
        P,
        SolveTranspose(&[6.0, 7.0]),
        &[Solved(&[1.0, 1.0])],
    ),
    row(
        "P, replace column 0 by (1,8)",
        P,
        ReplaceColumn {
            column: 0,
            values: &[1.0, 8.0],
        },
        &[All(factors(
            2,
            &[0.0, 1.0, 1.0, -0.125],
            &[8.0, 1.0, 5.875],
        ))],
    ),
    row(
        "P, replace row 0 by (1,1)",
        P,
        ReplaceRow {
            row: 0,
            values: &[1.0, 1.0],
        },
        &[All(factors(2, &[0.0, 1.0, 1.0, -0.25], &[4.0, 1.0, 0.75]))],
    ),
    row(
        "P, remove 1, 1",
        P,
        Remove { row: 1, column: 1 },
        &[All(factors(1, &[1.0], &[2.0])), Moved(None, None)],
    ),
    row(
        "empty, push d -0, solve (5)",
        pushes(&[first(-0.0)]),
        Solve(&[5.0]),
        &[Refused(9, 0), Solved(&[5.0])],
    ),
];

const BESIDE: [Row; 12] = [
    row(
        "Q, solve (8,2)",
        Q,
        Solve(&[8.0, 2.0]),
        &[Solved(&[1.0, 1.0])],
    ),
    row(
        "Q, transpose solve (3,7)",
        Q,
        SolveTranspose(&[3.0, 7.0]),
        &[Solved(&[1.0, 1.0])],
    ),
    row(
        "M, replace row 1 by (-2,-2,3)",
        M,
        ReplaceRow {
            row: 1,
            values: &[-2.0, -2.0, 3.0],
        },
        &[All(factors(
            3,
            &[3.0, 0.0, 2.0, 3.0, 1.0, 2.0, 0.0, 0.5, -1.0],
            &[2.0, -2.0, 1.0, -4.0, 4.0, 4.0],
        ))],
    ),
    row(
        "M, replace column 0 by (-2,-2,3)",
        M,
        ReplaceColumn {
            column: 0,
            values: &[-2.0, -2.0, 3.0],
        },
        &[All(factors(
            3,
            &[0.0, 2.0, 0.0, 0.75, -1.5, -0.5, 3.75, -1.5, 1.5],
            &[-4.0, -2.0, 1.0, 2.0, 2.0, 3.0],
        ))],
    ),
    row(
        "M, remove 0, 0",
        M,
        Remove { row: 0, column: 0 },
        &[All(factors(2, &[-1.0, -1.0, 0.5, 2.5], &[2.0, 2.0, -3.0]))],
    ),
    row(
        "M, remove 2, 1",
        M,
        Remove { row: 2, column: 1 },
        &[All(factors(2, &[0.0, 2.0, 1.5, -2.0], &[2.0, 1.0, 2.0]))],
    ),
    row(
        "a trimmed end, replace row 1 by (4,4,-4)",
        TRIMMED,
        ReplaceRow {
            row: 1,
            values: &[4.0, 4.0, -4.0],
        },
        &[All(factors(
            3,
            &[0.0, 1.0, 0.0, -4.0, 0.5, 1.0, -1.0, 0.0, -1.0],
            &[4.0, 4.0, -4.0, 4.5, 4.0, 1.0],
        ))],
    ),
    row(
        "P, remove 0, 1",
        P,
        Remove { row: 0, column: 1 },
        &[Moved(Some(1), None)],
    ),
    row(
        "P, remove 1, 0",
        P,
        Remove { row: 1, column: 0 },
        &[Moved(None, Some(1))],
    ),
    zero_based(row(
        "a NaN passes Forward untouched",
        TWO,
        second(&[NAN], &[6.0]),
        &[All(factors(2, &[1.0, 0.0, 0.0, 1.0], &[2.0, 6.0, 1.0]))],
    )),
    zero_based(row(
        "a NaN does not pass Backward",
        IDENTITY_3,
        ReplaceColumn {
            column: 0,
            values: &[1.0, NAN, 1.0],
        },
        &[EntryOfU(1, 1, NAN)],
    )),
    row(
        "dense(row) is cleared also where Backward skips the row",
        IDENTITY_4,
        ReplaceColumn {
            column: 0,
            values: &[1.0, 1.0, 0.0, 1.0],
        },
        &[EntryOfU(1, 2, 0.0)],
    ),
];

/// The managed calls meet a NaN at their guards in factors that hold one. Among data they
/// refuse it.
const MANAGED_NANS: [Row; 8] = [
    managed(row(
        "a NaN on U's diagonal passes Forward untouched",
        NAN_ON_DIAGONAL,
        second(&[4.0], &[6.0]),
        &[All(factors(2, &[1.0, 0.0, 0.0, 1.0], &[NAN, 6.0, 1.0]))],
    )),
    managed(row(
        "a NaN that U gives passes Forward untouched",
        NAN_BESIDE_DIAGONAL,
        Push {
            row: &[1.0, 1.0],
            column: &[0.0, 0.0],
            diagonal: 1.0,
        },
        &[All(factors(
            3,
            &[1.0, 0.0, 0.0, 0.0, 1.0, 0.0, -0.5, 0.0, 1.0],
            &[2.0, NAN, 0.0, 3.0, 0.0, 1.0],
        ))],
    )),
    managed(row(
        "a NaN that L gives does not pass Backward",
        NAN_IN_PRODUCT,
        ReplaceColumn {
            column: 0,
            values: &[1.0, 1.0, 1.0],
        },
        &[EntryOfU(1, 1, NAN)],
    )),
    managed(row(
        "a NaN in a pushed row",
        TWO,
        second(&[NAN], &[INFINITY]),
        &[Refused(23, 0), All(TWO_LEFT)],
    )),
    managed(row(
        "an infinity in a pushed column",
        TWO,
        second(&[4.0], &[INFINITY]),
        &[Refused(23, 1), All(TWO_LEFT)],
    )),
    managed(row(
        "a negative infinity as a pushed diagonal",
        TWO,
        Push {
            row: &[4.0],
            column: &[6.0],
            diagonal: -INFINITY,
        },
        &[Refused(23, 2), All(TWO_LEFT)],
    )),
    managed(row(
        "a NaN in the values of replace row",
        IDENTITY_3,
        ReplaceRow {
            row: 0,
            values: &[1.0, 1.0, NAN],
        },
        &[Refused(23, 2), All(IDENTITY_3.factors)],
    )),
    managed(row(
        "a NaN in the values of replace column",
        IDENTITY_3,
        ReplaceColumn {
            column: 0,
            values: &[1.0, NAN, NAN],
        },
        &[Refused(23, 1), All(IDENTITY_3.factors)],
    )),
];

/// Each interface has its own E.
const EPSILONS: [Row; 2] = [
    managed(row(
        "8191 x 2^-65 passes Forward at E = 2^-52",
        pushes(&[first(1.0)]),
        second(&[BETWEEN], &[0.0]),
        &[All(factors(2, &[1.0, 0.0, 0.0, 1.0], &[1.0, 0.0, 1.0]))],
    )),
    zero_based(row(
        "8191 x 2^-65 is eliminated at E = 2.22e-16",
        pushes(&[first(1.0)]),
        second(&[BETWEEN], &[0.0]),
        &[All(factors(
            2,
            &[1.0, 0.0, -BETWEEN, 1.0],
            &[1.0, 0.0, 1.0],
        ))],
    )),
];

/// The rows that an interface has calls for.
pub fn rows(interface: Interface) -> impl Iterator<Item = Row> {
    let all = TABLE
        .into_iter()
        .chain(BESIDE)
        .chain(MANAGED_NANS)
        .chain(EPSILONS);
    all.filter(move |row| [Interface::Both, interface].contains(&row.interface))
}

/// What the calls of a row have left.
pub struct Found<'a> {
    pub n: usize,
    pub stride: usize,
    pub buffers: &'a Buffers,
    pub solved: &'a [f64],
}

impl Found<'_> {
    /// The first thing that is not as the table has it, or None where the table speaks
    /// of an answer. With `changed` the last bit of the table's last value is another.
    pub fn difference(&self, left: &Left, changed: bool) -> Option<String> {
        match *left {
            All(Factors { n, .. }) if self.n != n => {
                Some(format!("dimension {}, the table has {n}", self.n))
            }
            All(Factors { l, u, .. }) => self
                .factor(Name::L, l, false)
                .or_else(|| self.factor(Name::U, u, changed)),
            EntryOfU(i, j, value) => {
                let found = self.buffers[Name::U].slice()[u_place(self.stride, i, j)];
                first_difference("u", &[found], &[value], changed)
            }
            Solved(values) => first_difference("the solved vector", self.solved, values, changed),
            Refused(..) | Moved(..) => None,
        }
    }

    fn factor(&self, name: Name, values: &[f64], changed: bool) -> Option<String> {
        let places = active(self.stride, self.n).filter(|&(of, _)| of == name);
        let found: Vec<_> = places
            .map(|(_, place)| self.buffers[name].slice()[place])
            .collect();
        first_difference(name.text(), &found, values, changed)
    }
}

/// Bit for bit, with all NaNs alike.
fn first_difference(what: &str, found: &[f64], expected: &[f64], changed: bool) -> Option<String> {
    let mut expected = expected.to_vec();
    if let (true, Some(last)) = (changed, expected.last_mut()) {
        *last = f64::from_bits(if last.is_nan() { 0 } else { last.to_bits() ^ 1 });
    }
    if found.len() != expected.len() {
        let (found, expected) = (found.len(), expected.len());
        return Some(format!("{what}: {found} entries, the table has {expected}"));
    }
    let mut pairs = found.iter().zip(&expected).enumerate();
    let differ = |(found, expected): (&f64, &f64)| {
        found.to_bits() != expected.to_bits() && !(found.is_nan() && expected.is_nan())
    };
    let (k, (found, expected)) = pairs.find(|&(_, pair)| differ(pair))?;
    Some(format!(
        "entry {k} of {what} is {found:?}, the table has {expected:?}"
    ))
}

/// Ends the run where something that is left is not as the row has it, and where a
/// changed value of the row would not be found. `difference` is told whether the
/// value is changed.
pub fn check<'a>(
    row: &Row,
    mut left: impl Iterator<Item = &'a Left>,
    difference: impl Fn(&Left, bool) -> Option<String>,
) -> Result<(), End> {
    left.try_for_each(|left| {
        if let Some(what) = difference(left, false) {
            println!("difference in the bench table's row '{}': {what}", row.what);
            return Err(End::Differs);
        }
        if difference(left, true).is_none() {
            println!("a changed value of the bench table's row '{}'", row.what);
            return Err(End::PlantedNotFound);
        }
        Ok(())
    })
}
