//! The paths of an update: where its row and column are, what becomes of every
//! pair of each Forward and Backward, which the plain copy notes as it runs,
//! what becomes of the counter, and what data are refused. The paths of ready:
//! what it answers, and for which part of the factors.

use super::answer::Answer;
use super::call::{Call, Function, Instance};
use super::counter::{most, END};
use super::parts::PARTS;
use super::refusals::NON_FINITE_DATA;

/// By what becomes of a pair, as are the three below. The last is taken besides where a
/// guard meets a NaN: Forward's passes over the pair, Backward's does not.
pub const FORWARD: [&str; 5] = [
    "Forward skips",
    "Forward clears",
    "Forward eliminates",
    "Forward exchanges",
    "Forward passes over a NaN",
];
/// Of a Forward's first pair.
pub const FIRST_FORWARD: [&str; 4] = [
    "Forward skips first",
    "Forward clears first",
    "Forward eliminates first",
    "Forward exchanges first",
];
pub const BACKWARD: [&str; 5] = [
    "Backward skips",
    "Backward clears",
    "Backward eliminates",
    "Backward exchanges",
    "Backward does not pass over a NaN",
];
/// Of the Backward that does not trim, with which remove ends.
pub const LAST_BACKWARD: [&str; 5] = [
    "last Backward skips",
    "last Backward clears",
    "last Backward eliminates",
    "last Backward exchanges",
    "last Backward does not pass over a NaN",
];
/// The number of the path that is taken where a guard meets a NaN.
pub const WITH_NAN: usize = 4;
/// The guards that meet NaNs, with the paths where they do.
pub const NAN_GUARDS: [(&str, &[&str]); 2] = [
    ("Forward's", &[FORWARD[WITH_NAN]]),
    ("Backward's", &[BACKWARD[WITH_NAN], LAST_BACKWARD[WITH_NAN]]),
];
pub const TRIMMING: [&str; 3] = ["keeps the last row", "trims", "trimming ends at a NaN"];
const DIMENSION_1: &str = "dimension 1";
const LAST_OR_INNER_ROW: [&str; 2] = ["last row", "inner row"];
const LAST_OR_INNER_COLUMN: [&str; 2] = ["last column", "inner column"];
/// By the part of the data with the first place that is infinite or NaN.
const REFUSED_PARTS: [&str; 3] = ["row refused", "column refused", "diagonal refused"];
/// By the value there. The last is taken besides where more such places follow.
const REFUSED_VALUES: [&str; 5] = [
    "infinity refused",
    "negative infinity refused",
    "quiet NaN refused",
    "signalling NaN refused",
    "first of several refused",
];
const COUNTER: [&str; 6] = [
    "counter stops at 999,999",
    "larger counter accepted",
    "larger counter accepted without a pair step",
    "larger counter refused",
    "sum beyond 64 bits",
    "most pair steps",
];

/// By the part of the factors for which alone they are not ready.
pub const READY: [&str; 4] = [
    "ready",
    "not ready by L alone",
    "not ready by the diagonal alone",
    "not ready by U above the diagonal alone",
];
const NOT_READY_BY_SEVERAL: &str = "not ready by several of these";

/// The paths of a function that a run must take.
pub fn all_paths(function: Function) -> Vec<&'static str> {
    let paths: &[&[&str]] = match function {
        Function::Push => &[&[DIMENSION_1], &FORWARD, &REFUSED_PARTS, &REFUSED_VALUES],
        Function::ReplaceRow => &[
            &[DIMENSION_1],
            &TRIMMING,
            &BACKWARD,
            &FORWARD,
            &REFUSED_VALUES,
        ],
        Function::ReplaceColumn => &[
            &LAST_OR_INNER_COLUMN,
            &TRIMMING,
            &BACKWARD,
            &FORWARD,
            &REFUSED_VALUES,
        ],
        Function::Remove => &[
            &[DIMENSION_1],
            &LAST_OR_INNER_ROW,
            &LAST_OR_INNER_COLUMN,
            &TRIMMING,
            &BACKWARD,
            &FORWARD,
            &LAST_BACKWARD,
        ],
        Function::Ready => return [&READY[..], &[NOT_READY_BY_SEVERAL]].concat(),
        _ => return vec![],
    };
    [&paths.concat()[..], &FIRST_FORWARD, &COUNTER].concat()
}

/// Where the row and column of an accepted update at dimension n are.
pub fn position(call: &Call, n: usize) -> Vec<&'static str> {
    let row = || LAST_OR_INNER_ROW[usize::from(call.row + 1 < n)];
    let column = || LAST_OR_INNER_COLUMN[usize::from(call.column + 1 < n)];
    match (call.function, n) {
        (Function::Push, 0) => vec![DIMENSION_1],
        (Function::ReplaceRow | Function::Remove, 1) => vec![DIMENSION_1],
        (Function::ReplaceColumn, _) => vec![column()],
        (Function::Remove, _) => vec![row(), column()],
        _ => vec![],
    }
}

/// What becomes of the counter in an update that gives `answer`, and whether it
/// makes the most pair steps, where these are more than one.
pub fn counter_paths(call: &Call, before: &Instance, answer: &Answer) -> Vec<&'static str> {
    let Instance { n, counter, .. } = *before;
    let steps = answer.outputs.steps;
    let (accepted, larger) = (answer.number == 0, counter > END);
    let taken = [
        accepted && !larger && counter + steps > END,
        accepted && larger && steps > 0,
        accepted && larger && steps == 0,
        !accepted && larger,
        accepted && counter.checked_add(steps).is_none(),
        accepted && n >= 3 && steps > 1 && steps == most(call, n),
    ];
    let paths = COUNTER.into_iter().zip(taken);
    paths
        .filter(|(_, taken)| *taken)
        .map(|(path, _)| path)
        .collect()
}

/// Where the data of an update that gives `answer` are refused, and for what.
pub fn data_paths(call: &Call, before: &Instance, answer: &Answer) -> Vec<&'static str> {
    if answer.number != NON_FINITE_DATA {
        return vec![];
    }
    let refused = |values: &[f64]| values.iter().any(|value| !value.is_finite());
    let [row, column, diagonal] = REFUSED_PARTS;
    let names = call.function.data(row, column, diagonal).into_iter();
    let mut parts = names.zip(call.data(before));
    let part = parts.find(|(_, values)| refused(values));
    let values = call.data(before).concat();
    let first = answer.outputs.index;
    let several = refused(&values[first + 1..]).then_some(REFUSED_VALUES[4]);
    let paths = part.into_iter().map(|(name, _)| name);
    paths
        .chain([refused_value(values[first])])
        .chain(several)
        .collect()
}

fn refused_value(value: f64) -> &'static str {
    let quiet = value.to_bits() >> 51 & 1 == 1;
    REFUSED_VALUES[match value {
        _ if value == f64::INFINITY => 0,
        _ if value == f64::NEG_INFINITY => 1,
        _ if quiet => 2,
        _ => 3,
    }]
}

/// Which parts of the factors are not sound, where ready is not refused.
pub fn ready_path(call: &Call, before: &Instance, answer: &Answer) -> Option<&'static str> {
    if call.function != Function::Ready || answer.number != 0 {
        return None;
    }
    Some(match PARTS.map(|part| part.is_sound(before)) {
        [true, true, true] => READY[0],
        [false, true, true] => READY[1],
        [true, false, true] => READY[2],
        [true, true, false] => READY[3],
        _ => NOT_READY_BY_SEVERAL,
    })
}
