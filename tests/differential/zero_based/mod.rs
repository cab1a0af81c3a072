//! The zero-based calls LUmod, Lprod and Usolve.

mod arguments;
mod bench_rows;
mod comparison;
mod counts;
mod expected;
mod faults;
mod limits;
mod lists;
mod sides;
mod single;

use crate::calls::{Calls, End};
use crate::plant::Planter;
use crate::random::Random;
use comparison::Comparison;
pub use faults::FAULTS;

/// The bench table, then lists and single calls by turns, until the run ends. With a
/// fault to plant without the table.
pub fn run(wanted: u64, seed: u64, kind: usize) -> End {
    if kind == 0 {
        if let Err(end) = play_bench_table(seed) {
            return end;
        }
    }
    let random = &mut Random::new(seed);
    let planter = Planter::of_kind(&FAULTS, kind, seed);
    let mut comparison = Comparison::new(Calls::new(wanted, seed), planter);
    let end = loop {
        let made = (0..60)
            .try_for_each(|_| single::call_once(random, &mut comparison))
            .and_then(|()| lists::call_list(random, &mut comparison));
        if let Err(end) = made {
            break end;
        }
    };
    if let End::AllMade = end {
        println!("{}; 0 differences", comparison.counts);
    }
    end
}

fn play_bench_table(seed: u64) -> Result<(), End> {
    let planter = Planter::of_kind(&FAULTS, 0, seed);
    let mut comparison = Comparison::new(Calls::new(u64::MAX, seed), planter);
    let rows = bench_rows::play(&mut Random::new(seed), &mut comparison)?;
    println!("{rows} rows of the bench table by zero-based calls; 0 differences");
    Ok(())
}
