//! The paths of the calls on cards: what a card that is written or read is like, which
//! blocks are damaged, and for what a card is refused.

use super::call::{Function, Lent};
use super::expected::Expected;
use super::flaws::{Flaw, FLAWS};
use super::refusals::{flaws_of, Cause, DAMAGED_BLOCK};
use super::words::{damaged_blocks, is_nan, State, Words, BLOCK_WORDS, NAN};
use crate::managed::counter::END;

/// Of a card that is written or read.
const CARD: [&str; 7] = [
    "dimension 0",
    "last block full",
    "capacity is the dimension",
    "larger capacity",
    "NaN",
    "counter 0",
    "counter 999,999",
];
/// Of one that is written.
const WRITTEN: [&str; 4] = [
    "NaN of another pattern",
    "larger counter",
    "just as long as needed",
    "bytes beyond",
];
/// By the block that is damaged.
const DAMAGED: [&str; 5] = [
    "block 0 damaged",
    "the last block damaged",
    "an inner block damaged",
    "several blocks damaged",
    "damaged and no card",
];
/// By the flaw for which alone blocks are no card.
const FLAWED: [&str; FLAWS.len()] = [
    "no card by word 1 alone",
    "no card by the blocks needed alone",
    "no card by the counter alone",
    "no card by block 0 alone",
    "no card by the last block alone",
    "no card by a NaN alone",
];
const FLAWED_AND_TOO_LARGE: &str = "no card and larger than the capacity";
const BROKEN: [&str; 3] = ["no byte", "less than a block", "blocks and a part of one"];

/// The paths of a function that a run must take.
pub fn all_paths(function: Function) -> Vec<&'static str> {
    let paths: &[&[&str]] = match function {
        Function::CardLength => &[],
        Function::WriteCard => &[&CARD, &WRITTEN],
        Function::ReadCard => &[&CARD, &BROKEN, &DAMAGED, &FLAWED, &[FLAWED_AND_TOO_LARGE]],
    };
    paths.concat()
}

pub fn paths(function: Function, before: &Lent, expected: &Expected) -> Vec<&'static str> {
    let Lent { instance, card } = before;
    match (function, expected.answer.number) {
        (Function::WriteCard, 0) => {
            let state = State::of(instance);
            let mut paths = card_paths(&state, instance.c);
            paths.extend(written_paths(&state, before, expected));
            paths
        }
        (Function::ReadCard, 0) => card_paths(&Words::of(card.slice()).state(), instance.c),
        (Function::ReadCard, 15) => vec![broken_path(before)],
        (Function::ReadCard, DAMAGED_BLOCK) => damaged_paths(before),
        (Function::ReadCard, 17) => flawed_paths(before),
        _ => vec![],
    }
}

fn chosen<const N: usize>(paths: [&'static str; N], taken: [bool; N]) -> Vec<&'static str> {
    let paths = paths.into_iter().zip(taken);
    paths
        .filter(|(_, taken)| *taken)
        .map(|(path, _)| path)
        .collect()
}

fn card_paths(state: &State, c: usize) -> Vec<&'static str> {
    let State {
        n,
        counter,
        ref entries,
    } = *state;
    let taken = [
        n == 0,
        n > 0 && entries.len() % BLOCK_WORDS == 0,
        n == c,
        n < c,
        entries.iter().any(|&bits| is_nan(bits)),
        counter == 0,
        counter == END,
    ];
    chosen(CARD, taken)
}

fn written_paths(state: &State, before: &Lent, expected: &Expected) -> Vec<&'static str> {
    let (length, written) = (before.card.len(), expected.answer.outputs.written);
    let other_nan = |&bits: &u64| is_nan(bits) && bits != NAN;
    let taken = [
        state.entries.iter().any(other_nan),
        state.counter > END,
        length == written,
        length > written,
    ];
    chosen(WRITTEN, taken)
}

fn broken_path(before: &Lent) -> &'static str {
    let blocks = Words::of(before.card.slice()).blocks();
    BROKEN[match (before.card.len(), blocks) {
        (0, _) => 0,
        (_, 0) => 1,
        _ => 2,
    }]
}

fn damaged_paths(before: &Lent) -> Vec<&'static str> {
    let card = before.card.slice();
    let last = Words::of(card).blocks() - 1;
    let damaged = damaged_blocks(card);
    let first = damaged[0];
    let taken = [
        first == 0,
        first == last,
        0 < first && first < last,
        damaged.len() > 1,
        !flaws_of(before).is_empty(),
    ];
    chosen(DAMAGED, taken)
}

fn flawed_paths(before: &Lent) -> Vec<&'static str> {
    let flaws: Vec<Flaw> = flaws_of(before);
    let alone = FLAWS.map(|flaw| flaws == [flaw]);
    let mut paths = chosen(FLAWED, alone);
    if Cause::CardDimension.holds(before) {
        paths.push(FLAWED_AND_TOO_LARGE);
    }
    paths
}
