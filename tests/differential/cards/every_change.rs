//! Every change of some kinds of a card: of a byte, of the length, of the blocks, and of the
//! words with right check words. Also large dimensions, and random blocks.

use super::call::{Function, Lent};
use super::changes::{double_block, drop_block, exchange_blocks, other_numbers};
use super::changes::{LARGER_COUNTERS, NOT_ZERO, OTHER_NANS};
use super::refusals::DAMAGED_BLOCK;
use super::search::{Search, SMALL};
use super::states::to_read;
use super::words::{Words, BLOCKS, BLOCK_BYTES, BLOCK_WORDS, COUNTER, DIMENSION, NAN};
use crate::calls::End;
use crate::managed::counter::END;

/// The dimensions of cards of three blocks. The last one has no rest.
const THREE_BLOCKS: [usize; 3] = [7, 8, 9];

/// Dimensions of cards with more blocks than a byte can count.
const LARGE: [usize; 2] = [120, 260];

/// What is put in place of a byte, as bits that change.
const BITS: [u8; 10] = [1, 2, 4, 8, 16, 32, 64, 128, 255, 0x5a];

impl Search<'_> {
    /// Every byte of cards of three blocks: in the first card every other value, in the others
    /// several.
    pub fn every_byte(&mut self) -> Result<(), End> {
        let all: Vec<u8> = (1..=255).collect();
        for (n, bits) in THREE_BLOCKS.into_iter().zip([&all[..], &BITS, &BITS]) {
            let card = self.card(n);
            for place in 0..card.len() {
                let mut lent = to_read(&card, n, self.random);
                self.damage(&mut lent, place, bits)?;
            }
        }
        Ok(())
    }

    /// A byte alone cannot be changed without a wrong check word in its block.
    fn damage(&mut self, lent: &mut Lent, place: usize, bits: &[u8]) -> Result<(), End> {
        for &bits in bits {
            lent.card.slice_mut()[place] ^= bits;
            let answer = self
                .comparison
                .call(Function::ReadCard, lent, self.random)?;
            let block = answer.outputs.block;
            if answer.number != DAMAGED_BLOCK || block != place / BLOCK_BYTES {
                let what = format!("a byte at {place} changed: answered {}", answer.number);
                return Err(self.comparison.report(Function::ReadCard, lent, &what));
            }
            lent.card.slice_mut()[place] ^= bits;
        }
        Ok(())
    }

    /// Cards of more than 256 blocks, and with a block about the 256th or the last one damaged
    /// or flawed.
    pub fn large(&mut self) -> Result<(), End> {
        for n in LARGE {
            self.write_and_read(n, n + 1, 77_777)?;
            let card = self.card(n);
            let words = Words::of(&card);
            for block in [255, 256, 257, words.blocks() - 1] {
                let mut lent = to_read(&card, n, self.random);
                self.damage(&mut lent, block * BLOCK_BYTES + 11, &BITS[..2])?;
                let mut words = words.clone();
                words.0[block * BLOCK_WORDS] = OTHER_NANS[0];
                self.read(&words.bytes(), n)?;
            }
        }
        Ok(())
    }

    /// Every length from 0 to two blocks beyond, with what was there or with anything.
    pub fn every_length(&mut self) -> Result<(), End> {
        for n in THREE_BLOCKS {
            let card = self.card(n);
            for length in 0..=card.len() + 2 * BLOCK_BYTES {
                let mut bytes = card.clone();
                bytes.resize_with(length, || self.random.bits() as u8);
                self.read(&bytes, n)?;
            }
        }
        Ok(())
    }

    /// Every block left out, put in twice, or exchanged with each other one, and zeros behind;
    /// with the check words that were there and with right ones.
    pub fn every_block(&mut self) -> Result<(), End> {
        for n in [0, 3, 7, 9, 12] {
            let card = self.card(n);
            let blocks = card.len() / BLOCK_BYTES;
            for first in 0..blocks {
                self.read_changed(&card, n, |bytes| drop_block(bytes, first))?;
                self.read_changed(&card, n, |bytes| double_block(bytes, first))?;
                for second in 0..first {
                    self.read_changed(&card, n, |bytes| exchange_blocks(bytes, first, second))?;
                }
            }
            self.read_changed(&card, n, |bytes| bytes.resize(bytes.len() + BLOCK_BYTES, 0))?;
        }
        Ok(())
    }

    fn read_changed(
        &mut self,
        card: &[u8],
        n: usize,
        change: impl FnOnce(&mut Vec<u8>),
    ) -> Result<(), End> {
        let mut bytes = card.to_vec();
        change(&mut bytes);
        self.read(&bytes, n)?;
        let mut words = Words::of(&bytes);
        self.read(&words.bytes(), n)?;
        if words.blocks() > 0 {
            words.0[BLOCKS] = words.blocks() as u64;
            self.read(&words.bytes(), n)?;
        }
        Ok(())
    }

    /// Every word in turn with other contents and a right check word.
    pub fn every_word(&mut self) -> Result<(), End> {
        for n in [0, 1, 3, 7, 9] {
            let words = Words::of(&self.card(n));
            for place in 0..words.0.len() {
                for word in other_words(place, words.0[place]) {
                    let mut words = words.clone();
                    words.0[place] = word;
                    self.read(&words.bytes(), n)?;
                }
            }
        }
        Ok(())
    }

    /// Every two words exchanged.
    pub fn every_two_words(&mut self) -> Result<(), End> {
        let words = Words::of(&self.card(3));
        for first in 0..words.0.len() {
            for second in 0..first {
                let mut words = words.clone();
                words.0.swap(first, second);
                self.read(&words.bytes(), 3)?;
            }
        }
        Ok(())
    }

    /// Large dimensions in word 0, with each number of blocks in word 1. Some of them need, in
    /// 64 bits, as many entries as the card has.
    pub fn large_dimensions(&mut self) -> Result<(), End> {
        for n in [0, 1, 3, 7, 8, 9] {
            let words = Words::of(&self.card(n));
            let entries = words.state().entries.len();
            let powers = (12..64).map(|power| 1u64 << power);
            let powers = powers.flat_map(|power| [power - 1, power, power + n as u64]);
            let alike = dimensions_alike(entries as u128).into_iter();
            for dimension in powers.chain([u64::MAX - 1, u64::MAX]).chain(alike) {
                let mut words = words.clone();
                words.0[DIMENSION] = dimension;
                self.read(&words.bytes(), n)?;
            }
        }
        Ok(())
    }

    /// Blocks of random bytes, with right check words and without, and random entries.
    pub fn random_blocks(&mut self) -> Result<(), End> {
        for _ in 0..500 {
            let n = self.random.below(SMALL + 1);
            let mut words = Words::of(&self.card(n));
            words.0[BLOCK_WORDS..].fill_with(|| self.random.bits());
            self.read(&words.bytes(), n)?;
            words.0.fill_with(|| self.random.bits());
            self.read(&words.bytes(), n)?;
            let mut bytes = words.bytes();
            bytes.fill_with(|| self.random.bits() as u8);
            self.read(&bytes, n)?;
        }
        Ok(())
    }
}

/// What is put in place of a word.
fn other_words(place: usize, word: u64) -> Vec<u64> {
    match place {
        DIMENSION | BLOCKS => other_numbers(word).to_vec(),
        COUNTER => [&LARGER_COUNTERS[..], &[0, 1, END as u64]].concat(),
        _ => [&NOT_ZERO[..], &OTHER_NANS, &[0, NAN]].concat(),
    }
}

/// Dimensions from 2^13 on for which the number of entries is `entries` modulo 2^63.
fn dimensions_alike(entries: u128) -> Vec<u64> {
    let targets = [entries, entries + (1 << 63)];
    let roots = targets
        .into_iter()
        .flat_map(|target| [0, 1].map(|root| (target, root)));
    let lifted = roots.map(|(target, root)| lift(target, root));
    let fitting = lifted.filter_map(|n| u64::try_from(n).ok());
    fitting.filter(|&n| n >= 1 << 13).collect()
}

/// The n with n * (3 * n + 1) = 2 * entries modulo 2^65 and the parity of `root`. A bit more is
/// right after each step.
fn lift(entries: u128, root: u128) -> u128 {
    (1..65).fold(root, |n, bit| {
        let excess = n.wrapping_mul(3 * n + 1).wrapping_sub(2 * entries);
        n + ((excess >> bit & 1) << bit)
    })
}
