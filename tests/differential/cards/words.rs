//! Document 02's card as words and as bytes, in code of the driver's own.

use crate::buffers::Name;
use crate::managed::call::Instance;
use crate::managed::counter::END;
use crate::places::{l_place, u_place};

/// Words of 64 bits in a block: 63, and then its check word.
pub const BLOCK_WORDS: usize = 63;
pub const WORD_BYTES: usize = 8;
pub const BLOCK_BYTES: usize = (BLOCK_WORDS + 1) * WORD_BYTES;

/// How every NaN is written.
pub const NAN: u64 = 0x7ff8_0000_0000_0000;

/// The words of block 0 that are not zero.
pub const DIMENSION: usize = 0;
pub const BLOCKS: usize = 1;
pub const COUNTER: usize = 2;

/// How many active entries there are. A number beyond u128 is given as its largest.
pub fn entries(n: usize) -> u128 {
    let n = n as u128;
    (n * n).saturating_add(n * (n + 1) / 2)
}

/// How many blocks a card has.
pub fn blocks(n: usize) -> u128 {
    1 + entries(n).div_ceil(BLOCK_WORDS as u128)
}

/// How many bytes a card has. A number beyond u128 is given as its largest.
pub fn length(n: usize) -> u128 {
    blocks(n).saturating_mul(BLOCK_BYTES as u128)
}

/// Where the entries of a card stand in storage of capacity c: L row by row, then U row
/// by row, each row from its diagonal entry on.
pub fn places(c: usize, n: usize) -> impl Iterator<Item = (Name, usize)> {
    let l = (0..n).flat_map(move |i| (0..n).map(move |j| (Name::L, l_place(c, i, j))));
    let u = (0..n).flat_map(move |i| (i..n).map(move |j| (Name::U, u_place(c, i, j))));
    l.chain(u)
}

pub fn is_nan(bits: u64) -> bool {
    f64::from_bits(bits).is_nan()
}

/// What a card carries. The entries are bits of doubles, in the order of `places`.
#[derive(Clone)]
pub struct State {
    pub n: usize,
    pub counter: usize,
    pub entries: Vec<u64>,
}

impl State {
    pub fn of(instance: &Instance) -> Self {
        let Instance {
            n,
            c,
            counter,
            ref buffers,
        } = *instance;
        let bits = |(name, place): (Name, usize)| buffers[name].slice()[place].to_bits();
        Self {
            n,
            counter,
            entries: places(c, n).map(bits).collect(),
        }
    }

    /// Its card.
    pub fn words(&self) -> Words {
        let one_nan = |&bits| if is_nan(bits) { NAN } else { bits };
        let entries = self.entries.iter().map(one_nan).collect();
        self.words_with(entries)
    }

    /// Its card with words in place of the entries.
    pub fn words_with(&self, entries: Vec<u64>) -> Words {
        let blocks = blocks(self.n) as usize;
        let counter = self.counter.min(END);
        let mut words = vec![self.n as u64, blocks as u64, counter as u64];
        words.resize(BLOCK_WORDS, 0);
        words.extend(entries);
        words.resize(BLOCK_WORDS * blocks, 0);
        Words(words)
    }
}

/// The words of whole blocks, without check words.
#[derive(Clone)]
pub struct Words(pub Vec<u64>);

impl Words {
    /// Leaves out what is not a whole block.
    pub fn of(bytes: &[u8]) -> Self {
        let blocks = bytes.chunks_exact(BLOCK_BYTES);
        let words = |block| words_of(block).take(BLOCK_WORDS);
        Self(blocks.flat_map(words).collect())
    }

    pub fn blocks(&self) -> usize {
        self.0.len() / BLOCK_WORDS
    }

    /// With right check words.
    pub fn bytes(&self) -> Vec<u8> {
        let blocks = self.0.chunks(BLOCK_WORDS).enumerate();
        blocks.flat_map(block_bytes).collect()
    }

    /// What a card carries, where these words are one.
    pub fn state(&self) -> State {
        let n = self.0[DIMENSION] as usize;
        let entries = &self.0[BLOCK_WORDS..][..entries(n) as usize];
        State {
            n,
            counter: self.0[COUNTER] as usize,
            entries: entries.to_vec(),
        }
    }
}

fn words_of(bytes: &[u8]) -> impl Iterator<Item = u64> + '_ {
    let words = bytes.chunks_exact(WORD_BYTES);
    words.map(|word| u64::from_le_bytes(word.try_into().expect("a word has 8 bytes")))
}

fn block_bytes((number, words): (usize, &[u64])) -> Vec<u8> {
    let check = check(number, words.iter().copied());
    let words = words.iter().chain([&check]);
    words.flat_map(|word| word.to_le_bytes()).collect()
}

/// The sum of a block's words and its number.
fn check(number: usize, words: impl Iterator<Item = u64>) -> u64 {
    words.fold(number as u64, u64::wrapping_add)
}

/// The numbers of the whole blocks whose check word is wrong.
pub fn damaged_blocks(bytes: &[u8]) -> Vec<usize> {
    let blocks = bytes.chunks_exact(BLOCK_BYTES).enumerate();
    let damaged = |&(number, block): &(usize, &[u8])| {
        let words = words_of(block).take(BLOCK_WORDS);
        Some(check(number, words)) != words_of(block).last()
    };
    blocks.filter(damaged).map(|(number, _)| number).collect()
}
