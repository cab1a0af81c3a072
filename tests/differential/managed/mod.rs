//! The managed calls, from `lumod_storage_lengths` to `lumod_ready`.

mod answer;
mod archive;
mod bench_rows;
pub mod call;
pub mod comparison;
pub mod counter;
pub mod counts;
mod declarations;
mod expected;
mod faults;
pub mod lists;
mod pair;
mod parts;
mod paths;
mod plain;
mod published;
mod readiness;
pub mod refusals;
pub mod refused;
mod sets;

use crate::calls::{Calls, End};
use crate::plant::Planter;
use crate::random::Random;
use comparison::Comparison;
pub use faults::FAULTS;

/// A run of so many calls must reach every answer and every path, enough NaNs at guards, and
/// ready often enough with each part of the factors not sound.
const ENOUGH: u64 = 100_000;

/// Larger factors are searched for ready once, and once more for so many calls.
const CALLS_OF_A_SEARCH: u64 = 200_000;

/// The bench table, sets of causes for a refusal, ready at every place, then lists. With a
/// fault to plant lists alone.
pub fn run(wanted: u64, seed: u64, kind: usize) -> End {
    if kind == 0 {
        let before = play_bench_table(seed)
            .and_then(|()| call_sets(seed))
            .and_then(|()| search_for_ready(wanted, seed));
        if let Err(end) = before {
            return end;
        }
    }
    let planter = Planter::of_kind(&FAULTS, kind, seed);
    let mut comparison = Comparison::new(Calls::new(wanted, seed), planter);
    match call_lists(&mut Random::new(seed), &mut comparison) {
        End::AllMade => summary(wanted, &comparison),
        end => end,
    }
}

fn play_bench_table(seed: u64) -> Result<(), End> {
    let planter = Planter::of_kind(&FAULTS, 0, seed);
    let mut comparison = Comparison::new(Calls::new(u64::MAX, seed), planter);
    let rows = bench_rows::play(&mut Random::new(seed), &mut comparison)?;
    println!("{rows} rows of the bench table by managed calls; 0 differences");
    Ok(())
}

fn call_sets(seed: u64) -> Result<(), End> {
    let planter = Planter::of_kind(&FAULTS, 0, seed);
    let mut comparison = Comparison::new(Calls::new(u64::MAX, seed), planter);
    let sets = sets::call_all(&mut Random::new(seed), &mut comparison)?;
    let made = comparison.calls.made;
    println!("{sets} sets of causes for a refusal, in {made} calls; 0 differences");
    Ok(())
}

fn search_for_ready(wanted: u64, seed: u64) -> Result<(), End> {
    let planter = Planter::of_kind(&FAULTS, 0, seed);
    let calls = Calls::new(u64::MAX, seed).of_run(wanted);
    let mut comparison = Comparison::new(calls, planter);
    let larger = 1 + wanted / CALLS_OF_A_SEARCH;
    let cases = readiness::search(larger, &mut Random::new(seed), &mut comparison)?;
    let made = comparison.calls.made;
    let all: usize = cases.iter().sum();
    println!("{all} storages with a value at one place or two, in {made} calls; 0 differences");
    println!("    by case: {}", readiness::text(&cases));
    if cases[..3].contains(&0) {
        println!("never reached: a case of ready");
        return Err(End::NotReached);
    }
    Ok(())
}

/// Short and long lists by turns, until the run ends.
fn call_lists(random: &mut Random, comparison: &mut Comparison) -> End {
    loop {
        let made = (0..40)
            .try_for_each(|_| lists::call_short_list(random, comparison))
            .and_then(|()| lists::call_long_list(random, comparison));
        if let Err(end) = made {
            return end;
        }
    }
}

fn summary(wanted: u64, comparison: &Comparison) -> End {
    println!("{}", comparison.counts);
    println!("{wanted} managed calls; 0 differences");
    let unreached = comparison.counts.unreached(wanted);
    if wanted >= ENOUGH && !unreached.is_empty() {
        println!("never reached: {}", unreached.join("; "));
        return End::NotReached;
    }
    End::AllMade
}
