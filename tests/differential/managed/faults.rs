//! The faults that are planted among the managed calls.

use std::mem::swap;

use super::answer::{Answer, Outputs};
use super::call::{Call, Function, Instance};
use super::expected::Expected;
use super::parts::PARTS;
use super::refusals::{is_ready, lengths, non_finite_entries, NON_FINITE_DATA};
use crate::buffers::{Name, VECTORS};
use crate::expectation::Place;
use crate::places::active;
use crate::plant::{flip, places, Planter};

#[derive(Clone, Copy, PartialEq)]
pub enum Fault {
    Factor,
    Solution,
    SignOfZero,
    NumberForNan,
    UnusedStorage,
    EndOfStorage,
    SolveWork,
    Workspace,
    Data,
    KeptFactor,
    AfterRefusal,
    BesideBuffer,
    Number,
    WhichBuffer,
    Index,
    IndexWritten,
    DataPlace,
    LastPlace,
    PlaceInColumn,
    DataAccepted,
    WorkspacesBeforeData,
    Moved,
    Dimension,
    Lengths,
    Ready,
    ReadyByDiagonal,
    ReadyByU,
    ReadyByLAndDiagonal,
    ReadyBySolveWork,
    ReadyByUnused,
    ReadyAtInfinity,
    ReadyAtNan,
    ReadyAtZero,
    OutputAfterRefusal,
    Counter,
    CounterBeyondEnd,
    CounterAfterRefusal,
    Steps,
    StepsAfterRefusal,
    PlainCopy,
}

use Fault::*;

/// Every kind of fault, with what it changes in the last instance, or for the last
/// kind in the plain copy.
#[rustfmt::skip]
pub const FAULTS: [(Fault, &str); 40] = [
    (Factor, "the last bit of an active entry after an update"),
    (Solution, "the last bit of an entry of a solution"),
    (SignOfZero, "the sign of a zero in a result"),
    (NumberForNan, "a number for a NaN in a result"),
    (UnusedStorage, "a bit of unused storage within the capacity"),
    (EndOfStorage, "a bit of storage beyond what the capacity asks for"),
    (SolveWork, "a bit of solve work that is kept"),
    (Workspace, "a bit of a workspace above the dimension"),
    (Data, "a bit of a lent row or column"),
    (KeptFactor, "a bit of an active entry after a call that is no update"),
    (AfterRefusal, "a bit of a buffer after a refusal"),
    (BesideBuffer, "a bit beside a buffer"),
    (Number, "the returned number"),
    (WhichBuffer, "the number of another buffer: 13 for 3, 14 for 13, 3 for 14"),
    (Index, "the index of a bad diagonal"),
    (IndexWritten, "the index, written by an update that names none"),
    (DataPlace, "the place of refused data, one further"),
    (LastPlace, "the last of several places of refused data in place of the first"),
    (PlaceInColumn, "the place in a refused column of a push, counted from 0"),
    (DataAccepted, "0 in place of 23"),
    (WorkspacesBeforeData, "8 in place of 23"),
    (Moved, "moved row and column, exchanged"),
    (Dimension, "the dimension after an update"),
    (Lengths, "the lengths of L and U, exchanged"),
    (Ready, "whether the factors are ready"),
    (ReadyByDiagonal, "the answer of ready, by U's diagonal alone"),
    (ReadyByU, "the answer of ready, by U alone"),
    (ReadyByLAndDiagonal, "the answer of ready, by L and U's diagonal alone"),
    (ReadyBySolveWork, "the answer of ready, by the solve work too"),
    (ReadyByUnused, "the answer of ready, by unused storage within the capacity too"),
    (ReadyAtInfinity, "the answer of ready, with infinities off the diagonal accepted"),
    (ReadyAtNan, "the answer of ready, with NaNs off the diagonal accepted"),
    (ReadyAtZero, "the answer of ready, with zeros on the diagonal accepted"),
    (OutputAfterRefusal, "an output after a refusal"),
    (Counter, "the counter after an update, one too many"),
    (CounterBeyondEnd, "the counter after an update, not stopped at 999,999"),
    (CounterAfterRefusal, "the counter after a refusal, one more"),
    (Steps, "the number of pair steps, one too many"),
    (StepsAfterRefusal, "the number of pair steps, not written by a refused update"),
    (PlainCopy, "the last bit of an active entry of the plain copy after an update"),
];

#[derive(Clone, Copy)]
enum Change {
    Answer(Answer),
    Place(Name, isize),
}

pub fn plant(
    planter: &mut Planter<Fault>,
    made: u64,
    call: &Call,
    before: &Instance,
    outputs: Outputs,
    expected: &mut Expected,
) {
    let chosen = planter.choose(made, |fault| {
        let places = places(&expected.buffers, |name, place| {
            suits(fault, call, before, expected, name, place)
        });
        let changes = places
            .into_iter()
            .map(|(name, place)| Change::Place(name, place));
        let answer = wrong_answer(fault, call, expected.answer)
            .or_else(|| wrong_place(fault, call, before, expected.answer))
            .or_else(|| wrong_ready(fault, call, before, expected.answer))
            .or_else(|| wrong_count(fault, call, outputs.of(before), expected.answer));
        changes.chain(answer.map(Change::Answer)).collect()
    });
    let buffers = &mut expected.buffers;
    match chosen {
        None => {}
        Some((_, Change::Answer(answer), _)) => expected.answer = answer,
        Some((fault, Change::Place(name, place), bit)) => match fault {
            Factor | Solution => flip(buffers.rust[name].at_mut(place), 0),
            SignOfZero => flip(buffers.rust[name].at_mut(place), 63),
            NumberForNan => *buffers.rust[name].at_mut(place) = 1.0,
            _ => flip(buffers.before[name].at_mut(place), bit),
        },
    }
}

/// Plants a fault in what the plain copy left after an accepted update.
pub fn plant_in_copy(
    planter: &mut Planter<Fault>,
    made: u64,
    call: &Call,
    before: &Instance,
    expected: &Expected,
    left: &mut Instance,
) {
    let chosen = planter.choose(made, |fault| {
        places(&expected.buffers, |name, place| {
            fault == PlainCopy && suits(Factor, call, before, expected, name, place)
        })
    });
    if let Some((_, (name, place), _)) = chosen {
        flip(left.buffers[name].at_mut(place), 0);
    }
}

/// What the fault puts in place of the answer, if that is another answer.
fn wrong_answer(fault: Fault, call: &Call, answer: Answer) -> Option<Answer> {
    let mut wrong = answer;
    let Outputs {
        n,
        l,
        u,
        moved_row,
        moved_column,
        index,
        ready,
        ..
    } = &mut wrong.outputs;
    let accepted = answer.number == 0;
    match (fault, call.function) {
        (Number, _) => wrong.number ^= 1,
        (WhichBuffer, _) => wrong.number = other_buffer(answer.number),
        (Index, _) if matches!(answer.number, 9 | 10) => *index += 1,
        (Moved, Function::Remove) if accepted => swap(moved_row, moved_column),
        (Dimension, function) if accepted && function.is_update() => *n += 1,
        (Lengths, Function::StorageLengths) if accepted => swap(l, u),
        (Ready, Function::Ready) if accepted => *ready ^= 1,
        (OutputAfterRefusal, function) if !accepted => match function {
            Function::Push => *n ^= 1,
            Function::Remove => *moved_column ^= 1,
            Function::Ready => *ready ^= 1,
            Function::StorageLengths => *u ^= 1,
            Function::FromStorage => {}
            _ => *index ^= 1,
        },
        _ => {}
    }
    (wrong != answer).then_some(wrong)
}

/// The same of an update that lends data, where they are refused or else no index is named.
fn wrong_place(fault: Fault, call: &Call, before: &Instance, answer: Answer) -> Option<Answer> {
    let mut wrong = answer;
    let place = &mut wrong.outputs.index;
    let values = call.data(before).concat();
    let refused = answer.number == NON_FINITE_DATA;
    let pushed = call.function == Function::Push;
    match fault {
        _ if values.is_empty() => {}
        IndexWritten if !refused => *place ^= 1,
        _ if !refused => {}
        DataPlace => *place += 1,
        LastPlace => *place = values.iter().rposition(|value| !value.is_finite())?,
        PlaceInColumn if pushed && (before.n..2 * before.n).contains(place) => *place -= before.n,
        DataAccepted => wrong.number = 0,
        WorkspacesBeforeData => wrong.number = 8,
        _ => {}
    }
    (wrong != answer).then_some(wrong)
}

/// The same of ready, where the fault is a wrong rule.
fn wrong_ready(fault: Fault, call: &Call, before: &Instance, answer: Answer) -> Option<Answer> {
    if call.function != Function::Ready || answer.number != 0 {
        return None;
    }
    let mut wrong = answer;
    wrong.outputs.ready = u8::from(ready_by_rule(fault, before)?);
    (wrong != answer).then_some(wrong)
}

/// What the wrong rule makes of the factors.
fn ready_by_rule(fault: Fault, before: &Instance) -> Option<bool> {
    let Instance { c, buffers, .. } = before;
    let [l, u] = [Name::L, Name::U].map(|name| buffers[name].slice());
    let finite = |values: &[f64]| values.iter().all(|value| value.is_finite());
    let [sound_l, sound_diagonal, sound_above] = PARTS.map(|part| part.is_sound(before));
    let entries = non_finite_entries(before);
    let nan = |&(name, place): &(Name, usize)| buffers[name].slice()[place].is_nan();
    Some(match fault {
        ReadyByDiagonal => sound_diagonal,
        ReadyByU => sound_diagonal && sound_above,
        ReadyByLAndDiagonal => sound_diagonal && sound_l,
        ReadyBySolveWork => is_ready(before) && finite(&l[c * c..][..*c]),
        ReadyByUnused => is_ready(before) && finite(&l[..c * c]) && finite(&u[..c * (c + 1) / 2]),
        ReadyAtInfinity => sound_diagonal && !entries.iter().any(nan),
        ReadyAtNan => sound_diagonal && entries.iter().all(nan),
        ReadyAtZero => entries.is_empty(),
        _ => return None,
    })
}

/// The number of another buffer than the one that was refused.
fn other_buffer(number: u32) -> u32 {
    match number {
        3 => 13,
        13 => 14,
        14 => 3,
        _ => number,
    }
}

/// The same of the counter and the pair steps of an update whose outputs held `outputs`.
fn wrong_count(fault: Fault, call: &Call, outputs: Outputs, answer: Answer) -> Option<Answer> {
    let mut wrong = answer;
    let Outputs { counter, steps, .. } = &mut wrong.outputs;
    match (fault, answer.number == 0) {
        _ if !call.function.is_update() => {}
        (Counter, true) => *counter += 1,
        (CounterBeyondEnd, true) => *counter = outputs.counter.wrapping_add(*steps),
        (CounterAfterRefusal, false) => *counter = counter.wrapping_add(1),
        (Steps, true) => *steps += 1,
        (StepsAfterRefusal, false) => *steps = outputs.steps,
        _ => {}
    }
    (wrong != answer).then_some(wrong)
}

/// Whether the fault changes what is expected at a place.
fn suits(
    fault: Fault,
    call: &Call,
    before: &Instance,
    expected: &Expected,
    name: Name,
    place: isize,
) -> bool {
    let buffers = &expected.buffers;
    let value = buffers.rust[name].at(place);
    let result = buffers.place(name, place) == Place::Result;
    let inside = place >= 0 && place < before.length(name) as isize;
    let accepted = expected.answer.number == 0;
    let kept = accepted && inside && buffers.place(name, place) == Place::Kept;
    let update = call.function.is_update();
    let lent = call.function.lent().contains(&name);
    match fault {
        Factor => result && update && !value.is_nan(),
        Solution => result && !update && !value.is_nan(),
        SignOfZero => result && value == 0.0,
        NumberForNan => result && value.is_nan(),
        Workspace => kept && update && VECTORS.contains(&name),
        Data => kept && lent && matches!(name, Name::Row | Name::Column),
        AfterRefusal => !accepted && inside && lent,
        BesideBuffer => !inside && lent,
        _ => kept && part_of_storage(before, name, place as usize) == Some(fault),
    }
}

/// The fault that changes this part of the storage, if it is kept.
fn part_of_storage(before: &Instance, name: Name, place: usize) -> Option<Fault> {
    let Instance { n, c, .. } = *before;
    let (l, u) = lengths(c);
    match name {
        Name::L if place as u128 >= l => Some(EndOfStorage),
        Name::U if place as u128 >= u => Some(EndOfStorage),
        Name::L if place >= c * c => Some(SolveWork),
        Name::L | Name::U if active(c, n).any(|entry| entry == (name, place)) => Some(KeptFactor),
        Name::L | Name::U => Some(UnusedStorage),
        _ => None,
    }
}
