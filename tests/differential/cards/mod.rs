//! The calls on cards, from `lumod_card_length` to `lumod_read_card`, and lists of managed
//! calls that go on from a card.

mod bytes;
mod call;
mod changes;
mod comparison;
mod counts;
mod declarations;
mod every_change;
mod expected;
mod faults;
mod flaws;
mod lists;
mod paths;
mod refusals;
mod refused;
mod search;
mod sets;
mod states;
mod words;
mod wrong_writing;

use crate::calls::{Calls, End};
use crate::managed::comparison::Comparison as ManagedComparison;
use crate::managed::FAULTS as MANAGED_FAULTS;
use crate::plant::Planter;
use crate::random::Random;
use call::Function;
use changes::change;
use comparison::Comparison;
pub use faults::FAULTS;
use search::Search;
use states::{any_capacity, any_dimension, any_instance, to_read, to_write};
use words::Words;

/// A run of so many calls must reach every answer and every path.
const ENOUGH: u64 = 100_000;

/// Every change of some kinds, sets of causes for a refusal, then cards and lists by turns.
/// With a fault to plant cards and lists alone.
pub fn run(wanted: u64, seed: u64, kind: usize) -> End {
    if kind == 0 {
        let before = search_changes(wanted, seed).and_then(|()| call_sets(wanted, seed));
        if let Err(end) = before {
            return end;
        }
    }
    let planter = Planter::of_kind(&FAULTS, kind, seed);
    let mut comparison = Comparison::new(Calls::new(wanted, seed), planter);
    match call_cards(wanted, seed, &mut comparison) {
        End::AllMade => summary(wanted, &comparison),
        end => end,
    }
}

/// For calls before those that are wanted.
fn unlimited(wanted: u64, seed: u64) -> Comparison {
    let planter = Planter::of_kind(&FAULTS, 0, seed);
    Comparison::new(Calls::new(u64::MAX, seed).of_run(wanted), planter)
}

fn search_changes(wanted: u64, seed: u64) -> Result<(), End> {
    let mut comparison = unlimited(wanted, seed);
    let mut search = Search {
        random: &mut Random::new(seed),
        comparison: &mut comparison,
    };
    search.lengths()?;
    search.small()?;
    search.large()?;
    search.one_too_short()?;
    search.every_byte()?;
    search.every_length()?;
    search.every_block()?;
    search.every_word()?;
    search.every_two_words()?;
    search.large_dimensions()?;
    search.random_blocks()?;
    let made = comparison.calls.made;
    println!("{made} calls on small cards and on every change of some kinds; 0 differences");
    Ok(())
}

fn call_sets(wanted: u64, seed: u64) -> Result<(), End> {
    let mut comparison = unlimited(wanted, seed);
    let sets = sets::call_all(&mut Random::new(seed), &mut comparison)?;
    let made = comparison.calls.made;
    println!("{sets} sets of causes for a refusal, in {made} calls on cards; 0 differences");
    Ok(())
}

/// Cards of any factors, refused calls and lists by turns, until the run ends.
fn call_cards(wanted: u64, seed: u64, comparison: &mut Comparison) -> End {
    let random = &mut Random::new(seed);
    let planter = Planter::of_kind(&MANAGED_FAULTS, 0, seed);
    let calls = Calls::new(u64::MAX, seed).of_run(wanted);
    let mut managed = ManagedComparison::new(calls, planter);
    loop {
        let made = (0..12)
            .try_for_each(|_| {
                call_card(random, comparison)?;
                sets::call_refused(random, comparison)
            })
            .and_then(|()| lists::call_list(random, &mut managed, comparison));
        if let Err(end) = made {
            return end;
        }
    }
}

/// A card of any factors, written, read again, and read after changes.
fn call_card(random: &mut Random, comparison: &mut Comparison) -> Result<(), End> {
    let n = any_dimension(random);
    let instance = any_instance(n, any_capacity(n, random), random);
    let mut written = to_write(instance, random);
    comparison.call(Function::CardLength, &mut written, random)?;
    let answer = comparison.call(Function::WriteCard, &mut written, random)?;
    let bytes = &written.card.slice()[..answer.outputs.written];
    let mut read = to_read(bytes, any_capacity(n, random), random);
    comparison.call(Function::ReadCard, &mut read, random)?;
    for _ in 0..4 {
        let changed = change(Words::of(bytes), random);
        let capacity = any_capacity(n.saturating_sub(1), random);
        let mut read = to_read(&changed, capacity, random);
        comparison.call(Function::ReadCard, &mut read, random)?;
    }
    Ok(())
}

fn summary(wanted: u64, comparison: &Comparison) -> End {
    println!("{}", comparison.counts);
    println!("{wanted} calls on cards; 0 differences");
    let unreached = comparison.counts.unreached();
    if wanted >= ENOUGH && !unreached.is_empty() {
        println!("never reached: {}", unreached.join("; "));
        return End::NotReached;
    }
    End::AllMade
}
