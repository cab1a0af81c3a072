//! Changes of a card: of its bytes, of its blocks, and of its words with right check words.

use super::flaws::{Flaw, FLAWS};
use super::states::any_double;
use super::words::{blocks, entries, Words, BLOCKS, BLOCK_BYTES, BLOCK_WORDS, COUNTER, DIMENSION};
use super::words::{NAN, WORD_BYTES};
use crate::managed::counter::END;
use crate::random::Random;

/// What a word can hold that is to be zero. As doubles the last two are a zero and a NaN.
pub const NOT_ZERO: [u64; 6] = [1, 1 << 32, u64::MAX, 1 << 62, 1 << 63, NAN];

/// NaNs with another pattern, quiet and signalling.
pub const OTHER_NANS: [u64; 8] = [
    NAN | 1,
    NAN | 1 << 50,
    NAN | 1 << 63,
    0x7ff0_0000_0000_0001,
    0xfff0_0000_0000_0001,
    0x7ff4_0000_0000_0000,
    0x7fff_ffff_ffff_ffff,
    0xffff_ffff_ffff_ffff,
];

pub const LARGER_COUNTERS: [u64; 6] = [
    END as u64 + 1,
    END as u64 + 2,
    1 << 32,
    (1 << 32) + 1,
    1 << 63,
    u64::MAX,
];

/// Other numbers, some of which are the same in fewer bits.
pub fn other_numbers(number: u64) -> [u64; 8] {
    [
        number.wrapping_add(1),
        number.wrapping_sub(1),
        number ^ 1 << 16,
        number ^ 1 << 31,
        number ^ 1 << 32,
        number ^ 1 << 55,
        number ^ 1 << 63,
        u64::MAX - number,
    ]
}

/// Changes a card in one way or in several.
pub fn change(mut words: Words, random: &mut Random) -> Vec<u8> {
    match random.below(8) {
        0..=2 => put_flaw(&mut words, random.pick(&FLAWS), random),
        3 => change_words(&mut words, random),
        4 => (0..3).for_each(|_| put_flaw(&mut words, random.pick(&FLAWS), random)),
        _ => {}
    }
    let mut bytes = words.bytes();
    match random.below(8) {
        0 | 1 => change_bytes(&mut bytes, 0, random),
        2 => move_blocks(&mut bytes, random),
        3 => change_length(&mut bytes, random),
        4 => {
            change_bytes(&mut bytes, 0, random);
            change_length(&mut bytes, random);
        }
        _ => {}
    }
    bytes
}

/// Makes a card flawed, if it has a place for the flaw.
pub fn put_flaw(words: &mut Words, flaw: Flaw, random: &mut Random) {
    let n = words.0[DIMENSION] as usize;
    let fits = blocks(n) == words.blocks() as u128;
    let count = if fits { entries(n) as usize } else { 0 };
    let end = BLOCK_WORDS + count;
    match flaw {
        Flaw::NumberSaid => words.0[BLOCKS] = random.pick(&other_numbers(words.0[BLOCKS])),
        Flaw::NumberNeeded if random.chance(1, 2) => {
            words.0[DIMENSION] = random.pick(&other_numbers(n as u64));
        }
        Flaw::NumberNeeded => add_or_drop_block(words, random),
        Flaw::Counter => words.0[COUNTER] = random.pick(&LARGER_COUNTERS),
        Flaw::FirstBlock => {
            let word = COUNTER + 1 + random.below(BLOCK_WORDS - COUNTER - 1);
            words.0[word] = random.pick(&NOT_ZERO);
        }
        Flaw::LastBlock if end < words.0.len() => {
            let word = end + random.index(words.0.len() - end);
            words.0[word] = random.pick(&NOT_ZERO);
        }
        Flaw::Nan if end > BLOCK_WORDS => {
            let word = BLOCK_WORDS + random.index(end - BLOCK_WORDS);
            words.0[word] = random.pick(&OTHER_NANS);
        }
        Flaw::LastBlock | Flaw::Nan => {}
    }
}

/// With word 1 following.
fn add_or_drop_block(words: &mut Words, random: &mut Random) {
    let blocks = words.blocks();
    let blocks = random.pick(&[blocks + 1, (blocks - 1).max(1)]);
    words.0.resize(BLOCK_WORDS * blocks, 0);
    words.0[BLOCKS] = blocks as u64;
}

/// Two words exchanged, another entry, anything in every word, or anything in every entry.
fn change_words(words: &mut Words, random: &mut Random) {
    let all = words.0.len();
    let (first, second) = (random.below(all), random.below(all));
    match random.below(4) {
        0 => words.0.swap(first, second),
        1 => words.0[first] = any_double(random).to_bits(),
        2 => words.0.fill_with(|| random.bits()),
        _ => words.0[BLOCK_WORDS..].fill_with(|| random.bits()),
    }
}

/// One byte or several, from a place of their words on.
pub fn change_bytes(bytes: &mut [u8], from: usize, random: &mut Random) {
    let blocks = bytes.len() / BLOCK_BYTES;
    for _ in 0..random.pick(&[1, 1, 2, 3]) {
        let block = random.index(blocks) * BLOCK_BYTES;
        let place = block + from + random.below(BLOCK_BYTES - from);
        bytes[place] ^= 1 + random.below(255) as u8;
    }
}

/// Where the check word of a block is.
pub const CHECK: usize = BLOCK_WORDS * WORD_BYTES;

/// A block left out, put in twice, exchanged with another, or added.
pub fn move_blocks(bytes: &mut Vec<u8>, random: &mut Random) {
    let blocks = bytes.len() / BLOCK_BYTES;
    let (first, second) = (random.index(blocks), random.index(blocks));
    match random.below(4) {
        0 => drop_block(bytes, first),
        1 => double_block(bytes, first),
        2 => exchange_blocks(bytes, first, second),
        _ => bytes.extend((0..BLOCK_BYTES).map(|_| random.bits() as u8)),
    }
}

pub fn drop_block(bytes: &mut Vec<u8>, block: usize) {
    bytes.drain(block * BLOCK_BYTES..(block + 1) * BLOCK_BYTES);
}

pub fn double_block(bytes: &mut Vec<u8>, block: usize) {
    let end = (block + 1) * BLOCK_BYTES;
    let copy = bytes[block * BLOCK_BYTES..end].to_vec();
    bytes.splice(end..end, copy);
}

pub fn exchange_blocks(bytes: &mut [u8], first: usize, second: usize) {
    for k in 0..BLOCK_BYTES {
        bytes.swap(first * BLOCK_BYTES + k, second * BLOCK_BYTES + k);
    }
}

/// To nothing, or to blocks and a part of one.
pub fn change_length(bytes: &mut Vec<u8>, random: &mut Random) {
    let any = 1 + random.below(BLOCK_BYTES - 1);
    let part = random.pick(&[1, 8, 256, 504, 511, any, any]);
    match random.below(8) {
        0 => bytes.clear(),
        1 => bytes.truncate(part),
        2 | 3 => bytes.truncate(bytes.len().saturating_sub(part)),
        _ => bytes.extend((0..part).map(|_| random.bits() as u8)),
    }
}
