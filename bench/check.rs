//! Whether the two sides leave the same bits on the inputs that are timed.

use crate::batch::Batch;
use crate::inputs::{Call, Case, Inputs, CALLS};
use crate::measure::NAMES;
use crate::sides::{push_all, run, Factors, First, Second};

/// The error says where the first difference is.
pub fn check_all(all: &[Inputs]) -> Result<(), String> {
    for inputs in all {
        check_pushes(inputs).map_err(|what| format!("pushes up to n = {}, {what}", inputs.n))?;
        check_not_ready(inputs)?;
        for call in CALLS {
            for case in inputs.cases(call) {
                check_case(inputs, &case)
                    .map_err(|what| format!("{} at n = {}, {what}", call.name(), inputs.n))?;
            }
        }
    }
    Ok(())
}

/// The inputs hold the factors that the Rust has made.
fn check_pushes(inputs: &Inputs) -> Result<(), String> {
    let [first, mut second] = [(); 2].map(|()| Batch::new(inputs, Call::Push, 1));
    push_all::<Second>(inputs, &mut second);
    compare_factors(inputs, inputs.n, &first, &second)
}

/// The archive's ready must be no with an infinity in L(0,n-1) or U(0,n-1), which are both at
/// place n - 1: one that looks at less is faster.
fn check_not_ready(inputs: &Inputs) -> Result<(), String> {
    let n = inputs.n;
    for name in ["L", "U"] {
        let mut batch = Batch::new(inputs, Call::Ready, 1);
        let factor = if name == "L" {
            &mut batch.l
        } else {
            &mut batch.u
        };
        factor[n - 1] = f64::INFINITY;
        let mut factors = Second::adopt(n, inputs.capacity, &mut batch.l, &mut batch.u);
        if factors.ready(&mut batch.rhs) {
            let side = NAMES[1];
            let what = format!("ready at n = {n}, {side}: yes with an infinity in {name}");
            return Err(what);
        }
    }
    Ok(())
}

fn check_case(inputs: &Inputs, case: &Case) -> Result<(), String> {
    let [mut first, mut second] = [(); 2].map(|()| Batch::new(inputs, case.call, 1));
    run::<First>(inputs, case, &mut first);
    run::<Second>(inputs, case, &mut second);
    let after = match case.call {
        Call::Push => inputs.n + 1,
        Call::Remove => inputs.n - 1,
        _ => inputs.n,
    };
    compare_factors(inputs, after, &first, &second)?;
    match case.call {
        // The Rust solves zeros in its place, and the archive is lent no vector.
        Call::Ready => Ok(()),
        _ => compare_slices("the solved vector", &first.rhs, &second.rhs),
    }
}

/// The active entries at dimension m.
fn compare_factors(inputs: &Inputs, m: usize, first: &Batch, second: &Batch) -> Result<(), String> {
    for row in inputs.l_rows(m) {
        compare_slices("L", &first.l[row.clone()], &second.l[row])?;
    }
    for row in inputs.u_rows(m) {
        compare_slices("U", &first.u[row.clone()], &second.u[row])?;
    }
    Ok(())
}

fn compare_slices(name: &str, first: &[f64], second: &[f64]) -> Result<(), String> {
    for (first, second) in first.iter().zip(second) {
        if first.to_bits() != second.to_bits() {
            let [first_name, second_name] = NAMES;
            return Err(format!(
                "{name}: {first_name} {first:e}, {second_name} {second:e}"
            ));
        }
    }
    Ok(())
}
