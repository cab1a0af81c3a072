//! Lists of managed calls in which instances of the archive are written to a card and read
//! at another capacity. The Rust's instance goes on without a card.

use super::call::Function;
use super::comparison::Comparison;
use super::states::{to_read, to_write};
use super::words::State;
use crate::calls::End;
use crate::managed::call::Instance;
use crate::managed::comparison::Comparison as ManagedComparison;
use crate::managed::comparison::Sides;
use crate::managed::counter::END;
use crate::managed::lists::{room, List};
use crate::random::Random;

/// A list from any dimension on. A card comes after each call, after some, or after few.
pub fn call_list(
    random: &mut Random,
    managed: &mut ManagedComparison,
    comparison: &mut Comparison,
) -> Result<(), End> {
    let room = room(random);
    let n = random.below(room + 1);
    let mut list = List::start(n, room, random);
    let distance = random.pick(&[1, 3, 3, 8]);
    for _ in 0..random.between(5, 60) {
        let before = managed.calls.made;
        list.step(random, managed)?;
        comparison.counts.managed += managed.calls.made - before;
        if random.chance(1, distance) {
            go_on_from_card(&mut list.sides, room, random, comparison)?;
        }
    }
    Ok(())
}

/// One instance of the archive, or both. A counter that is more than 999,999 counts as
/// 999,999 in all others too.
fn go_on_from_card(
    sides: &mut Sides,
    room: usize,
    random: &mut Random,
    comparison: &mut Comparison,
) -> Result<(), End> {
    let Sides { rust, archive } = sides;
    rust.counter = rust.counter.min(END);
    let chosen = random.pick(&[[true, false], [false, true], [true, true]]);
    for (instance, chosen) in archive.iter_mut().zip(chosen) {
        if chosen {
            *instance = through_card(instance, rust, room, random, comparison)?;
            comparison.counts.resumed += 1;
        }
        instance.counter = instance.counter.min(END);
    }
    Ok(())
}

/// The instance that is read from an instance's card. The Rust's factors and counter have the
/// same card.
fn through_card(
    instance: &Instance,
    rust: &Instance,
    room: usize,
    random: &mut Random,
    comparison: &mut Comparison,
) -> Result<Instance, End> {
    let mut written = to_write(instance.clone(), random);
    let before = written.clone();
    let answer = comparison.call(Function::WriteCard, &mut written, random)?;
    let bytes = &written.card.slice()[..answer.outputs.written];
    if bytes != State::of(rust).words().bytes() {
        let what = "the Rust's factors have another card";
        return Err(comparison.report(Function::WriteCard, &before, what));
    }
    let c = capacity(rust.n, room, random);
    let mut read = to_read(bytes, c, random);
    comparison.call(Function::ReadCard, &mut read, random)?;
    Ok(read.instance)
}

/// With room for the list, or now and then without.
fn capacity(n: usize, room: usize, random: &mut Random) -> usize {
    if random.chance(1, 16) {
        return n + random.below(2);
    }
    n.max(room) + random.pick(&[0, 0, 1, 2, 6])
}
