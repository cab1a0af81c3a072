//! Cards as the planted faults about writing make them.

use super::call::Lent;
use super::faults::Fault;
use super::words::{is_nan, length, State, Words, BLOCKS, BLOCK_BYTES, BLOCK_WORDS};
use super::words::{COUNTER, NAN, WORD_BYTES};

use Fault::*;

/// The bytes that the fault writes.
pub fn wrong_writing(fault: Fault, before: &Lent) -> Option<Vec<u8>> {
    let state = State::of(&before.instance);
    let n = state.n;
    let mut words = state.words();
    match fault {
        BlockNumber | BlockNumberFromOne => return Some(with_other_checks(fault, &words)),
        BytesReversed => {
            let mut bytes = words.bytes();
            bytes.chunks_mut(WORD_BYTES).for_each(<[u8]>::reverse);
            return Some(bytes);
        }
        UBeforeL => words = reordered(state, |entries| entries.rotate_left(n * n)),
        LByColumns => words = reordered(state, |entries| transpose(&mut entries[..n * n], n)),
        UByColumns => words = reordered(state, |entries| by_columns(&mut entries[n * n..], n)),
        Payload => words = state.words_with(state.entries.clone()),
        NanSign => {
            let sign = |&bits: &u64| {
                if is_nan(bits) {
                    NAN | bits & 1 << 63
                } else {
                    bits
                }
            };
            words = state.words_with(state.entries.iter().map(sign).collect());
        }
        BlocksSaid => words.0[BLOCKS] -= 1,
        CounterNotWritten => words.0[COUNTER] = 0,
        CounterBeyondEnd => words.0[COUNTER] = before.instance.counter as u64,
        RestKept => {
            let end = BLOCK_WORDS + state.entries.len();
            let there = Words::of(&before.card.slice()[..length(n) as usize]);
            words.0[end..].copy_from_slice(&there.0[end..]);
        }
        _ => return None,
    }
    Some(words.bytes())
}

fn with_other_checks(fault: Fault, words: &Words) -> Vec<u8> {
    let mut bytes = words.bytes();
    for (number, block) in bytes.chunks_mut(BLOCK_BYTES).enumerate() {
        let (_, check) = block.split_at_mut(BLOCK_BYTES - WORD_BYTES);
        let right = check
            .iter()
            .rev()
            .fold(0, |sum: u64, &byte| sum << 8 | u64::from(byte));
        let wrong = match fault {
            BlockNumber => right.wrapping_sub(number as u64),
            _ => right.wrapping_add(1),
        };
        check.copy_from_slice(&wrong.to_le_bytes());
    }
    bytes
}

fn reordered(mut state: State, reorder: impl FnOnce(&mut [u64])) -> Words {
    reorder(&mut state.entries);
    state.words()
}

fn transpose(l: &mut [u64], n: usize) {
    for i in 0..n {
        for j in 0..i {
            l.swap(i * n + j, j * n + i);
        }
    }
}

/// A triangle of rows, from the diagonal on, as columns down to the diagonal.
fn by_columns(u: &mut [u64], n: usize) {
    let rows = u.to_vec();
    let row_start = |i: usize| (0..i).map(|row| n - row).sum::<usize>();
    let columns = (0..n).flat_map(|j| (0..=j).map(move |i| (i, j)));
    for (entry, (i, j)) in u.iter_mut().zip(columns) {
        *entry = rows[row_start(i) + j - i];
    }
}
