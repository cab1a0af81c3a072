//! The faults that are planted among the calls on cards.

use super::call::{Answer, Function, Lent, Outputs};
use super::expected::Expected;
use super::flaws::Flaw;
use super::refusals::{first_cause, flaws_of, Cause, DAMAGED_BLOCK};
use super::words::{damaged_blocks, length, BLOCK_BYTES};
use super::wrong_writing::wrong_writing;
use crate::buffers::Name;
use crate::expectation::Place;
use crate::plant::{flip, places, Planter};

#[derive(Clone, Copy, PartialEq)]
pub enum Fault {
    BlockNumber,
    BlockNumberFromOne,
    UBeforeL,
    LByColumns,
    UByColumns,
    BytesReversed,
    Payload,
    NanSign,
    BlocksSaid,
    CounterNotWritten,
    CounterBeyondEnd,
    RestKept,
    ByteBeyond,
    Written,
    FactorWritten,
    FlawBeforeDamage,
    DimensionBeforeLength,
    DimensionBeforeDamage,
    DimensionBeforeFlaw,
    CardBeforeStorage,
    UBeforeLTested,
    LastDamagedBlock,
    DamagedBlockFromOne,
    FirstBlockUntested,
    LastBlockUntested,
    NanUntested,
    CounterUntested,
    NumberSaidUntested,
    NumberNeededUntested,
    Entry,
    SolveWorkCleared,
    UnusedCleared,
    CounterNotRead,
    ByteRead,
    BlockWritten,
    OutputAfterRefusal,
    AfterRefusal,
    BesideBuffer,
    BesideCard,
    Number,
    Length,
    LengthBeyondEnd,
}

use Fault::*;

/// Every kind of fault, with what it changes.
#[rustfmt::skip]
pub const FAULTS: [(Fault, &str); 42] = [
    (BlockNumber, "the check words, without the block's number"),
    (BlockNumberFromOne, "the check words, with blocks numbered from 1"),
    (UBeforeL, "the entries written, U before L"),
    (LByColumns, "the entries written, L column by column"),
    (UByColumns, "the entries written, U column by column"),
    (BytesReversed, "the words written, from the most significant byte on"),
    (Payload, "the NaNs written, with their payloads"),
    (NanSign, "the NaNs written, with their signs"),
    (BlocksSaid, "the number of blocks written, without block 0"),
    (CounterNotWritten, "the counter written, 0"),
    (CounterBeyondEnd, "the counter written, not stopped at 999,999"),
    (RestKept, "the rest of the last block written, left as it was"),
    (ByteBeyond, "a byte beyond the writing"),
    (Written, "the number of bytes written, all that are lent"),
    (FactorWritten, "a bit of the factors after they are written"),
    (FlawBeforeDamage, "17 before 16"),
    (DimensionBeforeLength, "1 before 15"),
    (DimensionBeforeDamage, "1 before 16"),
    (DimensionBeforeFlaw, "1 before 17"),
    (CardBeforeStorage, "15 before 13"),
    (UBeforeLTested, "13 before 3"),
    (LastDamagedBlock, "the last of several damaged blocks in place of the first"),
    (DamagedBlockFromOne, "the damaged block, counted from 1"),
    (FirstBlockUntested, "0 or 1 in place of 17 for a word of block 0 that is not zero"),
    (LastBlockUntested, "0 or 1 in place of 17 for a word after the entries that is not zero"),
    (NanUntested, "0 or 1 in place of 17 for a NaN of another pattern"),
    (CounterUntested, "0 or 1 in place of 17 for a counter beyond 999,999"),
    (NumberSaidUntested, "0 or 1 in place of 17 for another number of blocks in word 1"),
    (NumberNeededUntested, "1 in place of 17 for another number of blocks than is needed"),
    (Entry, "the last bit of an entry read"),
    (SolveWorkCleared, "the solve work after reading, zeros"),
    (UnusedCleared, "unused storage within the capacity after reading, zeros"),
    (CounterNotRead, "the counter read, 0"),
    (ByteRead, "a byte of a card after it is read"),
    (BlockWritten, "the block, written with another number than 16"),
    (OutputAfterRefusal, "an output after a refusal"),
    (AfterRefusal, "a bit of a buffer or of a card after a refusal"),
    (BesideBuffer, "a bit beside a buffer"),
    (BesideCard, "a bit beside a card"),
    (Number, "the returned number"),
    (Length, "the length of a card, a block less"),
    (LengthBeyondEnd, "a length beyond 64 bits, without its upper bits"),
];

#[derive(Clone, Copy)]
enum Change {
    /// Another expectation in place of the right one.
    Whole,
    Place(Name, isize),
    Byte(isize),
}

/// A call, what it is lent, and what its outputs hold.
#[derive(Clone, Copy)]
struct Made<'a> {
    function: Function,
    before: &'a Lent,
    outputs: Outputs,
}

pub fn plant(
    planter: &mut Planter<Fault>,
    call: u64,
    function: Function,
    before: &Lent,
    outputs: Outputs,
    expected: &mut Expected,
) {
    let made = Made {
        function,
        before,
        outputs,
    };
    let chosen = planter.choose(call, |fault| changes(fault, made, expected));
    match chosen {
        None => {}
        Some((fault, Change::Whole, _)) => {
            if let Some(wrong) = wrong(fault, made, expected) {
                *expected = wrong;
            }
        }
        Some((Entry, Change::Place(name, place), _)) => {
            flip(expected.buffers.rust[name].at_mut(place), 0);
        }
        Some((_, Change::Place(name, place), bit)) => {
            flip(expected.buffers.before[name].at_mut(place), bit);
        }
        Some((_, Change::Byte(place), bit)) => *expected.card.at_mut(place) ^= 1 << (bit % 8),
    }
}

fn changes(fault: Fault, made: Made, expected: &Expected) -> Vec<Change> {
    if wrong(fault, made, expected).is_some() {
        return vec![Change::Whole];
    }
    let buffers = places(&expected.buffers, |name, place| {
        suits(fault, made, expected, name, place)
    });
    let buffers = buffers
        .into_iter()
        .map(|(name, place)| Change::Place(name, place));
    let bytes = expected.card.places();
    let bytes = bytes.filter(|&place| byte_suits(fault, made, expected, place));
    buffers.chain(bytes.map(Change::Byte)).collect()
}

/// What the fault puts in place of what is expected, if that is something else.
fn wrong(fault: Fault, made: Made, expected: &Expected) -> Option<Expected> {
    let answer = expected.answer;
    let Made {
        function,
        before,
        outputs,
    } = made;
    if let Some(cause) = wrong_cause(fault, function, before) {
        let wrong = Expected::by_cause(cause, function, before, outputs);
        return (wrong.answer != answer).then_some(wrong);
    }
    let mut wrong = Expected::new(function, before, outputs);
    if function == Function::WriteCard && answer.number == 0 {
        if let Some(bytes) = wrong_writing(fault, before) {
            wrong.write(&bytes);
        }
    }
    wrong.answer = wrong_answer(fault, made, answer);
    let cleared = answer.number == 0 && clear(fault, made, &mut wrong);
    (wrong.answer != answer || wrong.card != expected.card || cleared).then_some(wrong)
}

/// The cause that the fault finds in place of the first, where it is about causes.
fn wrong_cause(fault: Fault, function: Function, before: &Lent) -> Option<Option<Cause>> {
    let moved = |cause, place| {
        let causes = causes_moved(function, cause, place);
        Some(first_cause(&causes, before))
    };
    let untested = |flaw| without(flaw, function, before);
    match fault {
        FlawBeforeDamage => moved(Cause::Flawed, Cause::DamagedBlock),
        DimensionBeforeLength => moved(Cause::CardDimension, Cause::NoWholeBlocks),
        DimensionBeforeDamage => moved(Cause::CardDimension, Cause::DamagedBlock),
        DimensionBeforeFlaw => moved(Cause::CardDimension, Cause::Flawed),
        CardBeforeStorage if function == Function::WriteCard => {
            moved(Cause::ShortCard, Cause::ShortU)
        }
        CardBeforeStorage => moved(Cause::NoWholeBlocks, Cause::ShortU),
        UBeforeLTested => moved(Cause::ShortU, Cause::ShortL),
        FirstBlockUntested => untested(Flaw::FirstBlock),
        LastBlockUntested => untested(Flaw::LastBlock),
        NanUntested => untested(Flaw::Nan),
        CounterUntested => untested(Flaw::Counter),
        NumberSaidUntested => untested(Flaw::NumberSaid),
        NumberNeededUntested => untested(Flaw::NumberNeeded).filter(|cause| cause.is_some()),
        _ => None,
    }
}

/// The function's causes, one of them right before another.
fn causes_moved(function: Function, cause: Cause, place: Cause) -> Vec<Cause> {
    let others = function.causes().iter().filter(|&&other| other != cause);
    let moves = function.causes().contains(&cause);
    let two = |&other: &Cause| {
        let first = (moves && other == place).then_some(cause);
        first.into_iter().chain([other])
    };
    others.flat_map(two).collect()
}

/// The first cause where a flaw is not tested. None: the flaw does not decide.
fn without(flaw: Flaw, function: Function, before: &Lent) -> Option<Option<Cause>> {
    let cause = first_cause(function.causes(), before);
    let decides = cause == Some(Cause::Flawed) && flaws_of(before) == [flaw];
    decides.then(|| first_cause(&[Cause::CardDimension], before))
}

/// What the fault puts in place of the answer.
fn wrong_answer(fault: Fault, made: Made, answer: Answer) -> Answer {
    let Made {
        function,
        before,
        outputs,
    } = made;
    let accepted = answer.number == 0;
    let damaged = answer.number == DAMAGED_BLOCK;
    let mut wrong = answer;
    match (fault, function) {
        (Number, _) => wrong.number ^= 1,
        (Written, Function::WriteCard) if accepted => wrong.outputs.written = before.card.len(),
        (CounterNotRead, Function::ReadCard) if accepted => wrong.outputs.counter = 0,
        (DamagedBlockFromOne, _) if damaged => wrong.outputs.block += 1,
        (LastDamagedBlock, _) if damaged => {
            let last = damaged_blocks(before.card.slice()).pop();
            wrong.outputs.block = last.unwrap_or(outputs.block);
        }
        (BlockWritten, Function::ReadCard) if !damaged => wrong.outputs.block = 0,
        (OutputAfterRefusal, function) if !accepted => match function {
            Function::CardLength => wrong.outputs.bytes ^= 1,
            Function::WriteCard => wrong.outputs.written ^= 1,
            Function::ReadCard => wrong.outputs.n ^= 1,
        },
        (Length, Function::CardLength) if accepted => wrong.outputs.bytes -= BLOCK_BYTES,
        (LengthBeyondEnd, Function::CardLength) if !accepted => {
            wrong.number = 0;
            wrong.outputs.bytes = length(before.instance.n) as usize;
        }
        _ => {}
    }
    wrong
}

/// Puts zeros in place of what an accepted reading keeps. False: they were there before.
fn clear(fault: Fault, made: Made, wrong: &mut Expected) -> bool {
    let c = made.before.instance.c;
    let buffers = &mut wrong.buffers;
    let chosen = places(buffers, |name, place| {
        let kept = buffers.place(name, place) == Place::Kept;
        made.function == Function::ReadCard
            && kept
            && part_of_storage(c, name, place) == Some(fault)
    });
    let before = &mut buffers.before;
    let differs = |&(name, place): &(Name, isize)| before[name].at(place).to_bits() != 0;
    let changed = chosen.iter().any(differs);
    for (name, place) in chosen {
        *before[name].at_mut(place) = 0.0;
    }
    changed
}

/// The fault that clears this part of the storage.
fn part_of_storage(c: usize, name: Name, place: isize) -> Option<Fault> {
    let place = usize::try_from(place).ok()?;
    match name {
        Name::L if place < c * c => Some(UnusedCleared),
        Name::L if place < c * (c + 1) => Some(SolveWorkCleared),
        Name::U if place < c * (c + 1) / 2 => Some(UnusedCleared),
        _ => None,
    }
}

/// Whether the fault changes what is expected at a place of a buffer.
fn suits(fault: Fault, made: Made, expected: &Expected, name: Name, place: isize) -> bool {
    let buffers = &expected.buffers;
    let result = buffers.place(name, place) == Place::Result;
    let inside = place >= 0 && place < made.before.instance.length(name) as isize;
    let accepted = expected.answer.number == 0;
    let lent = made.function != Function::CardLength && matches!(name, Name::L | Name::U);
    match fault {
        Entry => result && !buffers.rust[name].at(place).is_nan(),
        FactorWritten => made.function == Function::WriteCard && accepted && inside && lent,
        AfterRefusal => !accepted && inside && lent,
        BesideBuffer => !inside && lent,
        _ => false,
    }
}

/// The same of a byte of the card.
fn byte_suits(fault: Fault, made: Made, expected: &Expected, place: isize) -> bool {
    let Answer { number, outputs } = expected.answer;
    let inside = place >= 0 && place < made.before.card.len() as isize;
    let accepted = number == 0;
    let writes = made.function == Function::WriteCard;
    match fault {
        _ if made.function == Function::CardLength => false,
        ByteBeyond => writes && accepted && inside && place >= outputs.written as isize,
        ByteRead => !writes && accepted && inside,
        AfterRefusal => !accepted && inside,
        BesideCard => !inside,
        _ => false,
    }
}
