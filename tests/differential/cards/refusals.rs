//! Document 02's refusals of the calls on cards: when each holds, and in which order they
//! are tested.

use super::call::{Function, Lent};
use super::flaws::{flaws, Flaw};
use super::words::{damaged_blocks, length, Words, BLOCK_BYTES, DIMENSION};
use crate::buffers::Name;
use crate::managed::refusals::lengths;

/// What a call is refused for.
#[derive(Clone, Copy, PartialEq)]
pub enum Cause {
    Dimension,
    LengthOverflow,
    StorageOverflow,
    ShortL,
    ShortU,
    ShortCard,
    NoWholeBlocks,
    DamagedBlock,
    Flawed,
    CardDimension,
}

use Cause::*;

/// The refusal that names a block.
pub const DAMAGED_BLOCK: u32 = 16;

impl Function {
    /// What the function is refused for, in the order in which it is tested.
    pub fn causes(self) -> &'static [Cause] {
        match self {
            Function::CardLength => &[LengthOverflow],
            Function::WriteCard => &[Dimension, StorageOverflow, ShortL, ShortU, ShortCard],
            Function::ReadCard => &[
                StorageOverflow,
                ShortL,
                ShortU,
                NoWholeBlocks,
                DamagedBlock,
                Flawed,
                CardDimension,
            ],
        }
    }
}

impl Cause {
    pub fn number(self) -> u32 {
        match self {
            Dimension | CardDimension => 1,
            LengthOverflow | StorageOverflow => 2,
            ShortL => 3,
            ShortU => 13,
            ShortCard | NoWholeBlocks => 15,
            DamagedBlock => DAMAGED_BLOCK,
            Flawed => 17,
        }
    }

    pub fn holds(self, lent: &Lent) -> bool {
        let Lent { instance, card } = lent;
        let (l, u) = lengths(instance.c);
        let is_short = |name, needed| (instance.length(name) as u128) < needed;
        match self {
            Dimension => instance.n > instance.c,
            LengthOverflow => length(instance.n) > usize::MAX as u128,
            StorageOverflow => l > usize::MAX as u128,
            ShortL => is_short(Name::L, l),
            ShortU => is_short(Name::U, u),
            ShortCard => (card.len() as u128) < length(instance.n),
            NoWholeBlocks => card.len() == 0 || card.len() % BLOCK_BYTES != 0,
            DamagedBlock => !damaged_blocks(card.slice()).is_empty(),
            Flawed => !flaws_of(lent).is_empty(),
            CardDimension => {
                let Words(words) = Words::of(card.slice());
                let n = words.get(DIMENSION);
                n.is_some_and(|&n| n > instance.c as u64)
            }
        }
    }
}

/// Of the whole blocks that there are.
pub fn flaws_of(lent: &Lent) -> Vec<Flaw> {
    let words = Words::of(lent.card.slice());
    if words.blocks() == 0 {
        return vec![];
    }
    flaws(&words)
}

/// The first of some causes, in their order, that holds.
pub fn first_cause(causes: &[Cause], lent: &Lent) -> Option<Cause> {
    causes.iter().copied().find(|cause| cause.holds(lent))
}
