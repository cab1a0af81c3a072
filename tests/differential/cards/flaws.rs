//! For what blocks with right check words are no card: document 02's refusal 17.

use super::words::{blocks, entries, is_nan, Words, BLOCKS, BLOCK_WORDS, COUNTER, DIMENSION, NAN};
use crate::managed::counter::END;

#[derive(Clone, Copy, PartialEq)]
pub enum Flaw {
    /// The blocks are not as many as word 1 of block 0 says.
    NumberSaid,
    /// They are not as many as the dimension needs.
    NumberNeeded,
    /// The counter is more than 999,999.
    Counter,
    /// A word of block 0 that carries nothing is not zero.
    FirstBlock,
    /// A word after the last entry is not zero.
    LastBlock,
    /// An entry is a NaN of another pattern.
    Nan,
}

pub const FLAWS: [Flaw; 6] = [
    Flaw::NumberSaid,
    Flaw::NumberNeeded,
    Flaw::Counter,
    Flaw::FirstBlock,
    Flaw::LastBlock,
    Flaw::Nan,
];

impl Flaw {
    /// Of at least one block. Where the blocks are not as many as needed, those after block 0
    /// are not looked at.
    pub fn is_in(self, words: &Words) -> bool {
        let number = words.blocks();
        let Words(words) = words;
        let needed = blocks(words[DIMENSION] as usize);
        let (first, other) = words.split_at(BLOCK_WORDS);
        let not_zero = |words: &[u64]| words.iter().any(|&word| word != 0);
        match self {
            Flaw::NumberSaid => words[BLOCKS] != number as u64,
            Flaw::NumberNeeded => needed != number as u128,
            Flaw::Counter => words[COUNTER] > END as u64,
            Flaw::FirstBlock => not_zero(&first[COUNTER + 1..]),
            _ if needed != number as u128 => false,
            Flaw::LastBlock => not_zero(&other[entries(words[DIMENSION] as usize) as usize..]),
            Flaw::Nan => {
                let entries = &other[..entries(words[DIMENSION] as usize) as usize];
                entries.iter().any(|&bits| is_nan(bits) && bits != NAN)
            }
        }
    }
}

pub fn flaws(words: &Words) -> Vec<Flaw> {
    let flaws = FLAWS.into_iter();
    flaws.filter(|flaw| flaw.is_in(words)).collect()
}
