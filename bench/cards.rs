//! The time that a card takes to be written and to be read, beside copies of as many bytes.

use std::hint::black_box;
use std::time::{Duration, Instant};

use crate::inputs::Inputs;

#[allow(dead_code)]
#[path = "../tests/differential/cards/declarations.rs"]
mod archive;

/// An earlier archive that has these calls, whose names have a prefix: bench/run writes these
/// declarations.
#[cfg(before_cards)]
#[allow(dead_code)]
#[path = "../target/bench/card_declarations.rs"]
mod before;

/// Cards are timed from this dimension on.
const LEAST_DIMENSION: usize = 100;
/// No batch is shorter than this.
const BATCH: Duration = Duration::from_micros(20);
const TIME: Duration = Duration::from_millis(1200);
const ROUNDS: usize = 10;

/// Factors, their card, and room for as many bytes.
struct Card {
    n: usize,
    capacity: usize,
    counter: usize,
    l: Vec<f64>,
    u: Vec<f64>,
    bytes: Vec<u8>,
    copy: Vec<u8>,
}

impl Card {
    fn new(inputs: &Inputs) -> Self {
        let mut length = 0;
        // SAFETY: the pointer leads to a number of its own.
        assert_eq!(0, unsafe {
            archive::lumod_card_length(inputs.n, &mut length)
        });
        let mut card = Self {
            n: inputs.n,
            capacity: inputs.capacity,
            counter: 0,
            l: inputs.l.clone(),
            u: inputs.u.clone(),
            bytes: vec![0; length],
            copy: vec![0; length],
        };
        assert!(write(&mut card) && read(&mut card) && copy_with_sums(&mut card));
        assert!(card.copy == card.bytes);
        card
    }
}

/// What is timed: its name, and the operation, which tells whether it was carried out.
type Operation = (&'static str, fn(&mut Card) -> bool);

#[cfg(not(before_cards))]
const OPERATIONS: [Operation; 4] = [
    ("writing", write),
    ("reading", read),
    ("copy", copy),
    ("copy with sums", copy_with_sums),
];
#[cfg(before_cards)]
const OPERATIONS: [Operation; 6] = [
    ("writing before", write_before),
    ("writing after", write),
    ("reading before", read_before),
    ("reading after", read),
    ("copy", copy),
    ("copy with sums", copy_with_sums),
];

// SAFETY, of all calls: every pointer comes with the length of its own slice or leads to a number
// of its own, and the slices are apart.
macro_rules! calls_on_cards {
    ($write:ident, $read:ident, $archive:ident) => {
        #[rustfmt::skip]
        fn $write(card: &mut Card) -> bool {
            let Card { n, capacity, counter, l, u, bytes, .. } = card;
            0 == unsafe {
                $archive::lumod_write_card(
                    *n, *capacity, *counter, l.as_ptr(), l.len(), u.as_ptr(), u.len(),
                    bytes.as_mut_ptr(), bytes.len(), &mut 0,
                )
            }
        }

        #[rustfmt::skip]
        fn $read(card: &mut Card) -> bool {
            let Card { n, capacity, counter, l, u, bytes, .. } = card;
            0 == unsafe {
                $archive::lumod_read_card(
                    n, *capacity, counter, l.as_mut_ptr(), l.len(), u.as_mut_ptr(), u.len(),
                    bytes.as_ptr(), bytes.len(), &mut 0,
                )
            }
        }
    };
}

calls_on_cards!(write, read, archive);
#[cfg(before_cards)]
calls_on_cards!(write_before, read_before, before);

fn copy(card: &mut Card) -> bool {
    card.copy.copy_from_slice(black_box(&card.bytes));
    true
}

/// Copies the words of each block and adds them up, and stores the sum behind them.
fn copy_with_sums(card: &mut Card) -> bool {
    let blocks = card
        .bytes
        .chunks_exact(512)
        .zip(card.copy.chunks_exact_mut(512));
    for (number, (from, to)) in blocks.enumerate() {
        let mut sum = number as u64;
        for (from, to) in from.chunks_exact(8).zip(to.chunks_exact_mut(8)).take(63) {
            let word = u64::from_le_bytes(from.try_into().unwrap());
            sum = sum.wrapping_add(word);
            to.copy_from_slice(&word.to_le_bytes());
        }
        to[504..].copy_from_slice(&sum.to_le_bytes());
    }
    true
}

/// A table of the nanoseconds, with each operation's as so many times those of either copy.
pub fn print_table(all: &[Inputs]) {
    println!("\n| card | n | bytes | ns | times a copy | times a copy with sums |");
    println!("|---|---:|---:|---:|---:|---:|");
    for inputs in all.iter().filter(|inputs| inputs.n >= LEAST_DIMENSION) {
        let mut card = Card::new(inputs);
        let times = measure(&mut card);
        let [.., copied, summed] = times;
        for ((name, _), time) in OPERATIONS.iter().zip(times) {
            let (n, bytes) = (card.n, card.bytes.len());
            println!(
                "| {name} | {n} | {bytes} | {time:.0} | {:.2} | {:.2} |",
                time / copied,
                time / summed
            );
        }
    }
}

/// The nanoseconds of each operation: the least of its batches, which are made by turns.
fn measure(card: &mut Card) -> [f64; OPERATIONS.len()] {
    let calls = OPERATIONS.map(|operation| batch_length(card, operation));
    let mut least = [Duration::MAX; OPERATIONS.len()];
    let start = Instant::now();
    let mut round = 0;
    while round < ROUNDS || start.elapsed() < TIME {
        for (k, operation) in OPERATIONS.into_iter().enumerate() {
            least[k] = least[k].min(make_batch(card, operation, calls[k]));
        }
        round += 1;
    }
    std::array::from_fn(|k| least[k].as_nanos() as f64 / calls[k] as f64)
}

/// How many calls a batch needs.
fn batch_length(card: &mut Card, operation: Operation) -> usize {
    let mut calls = 1;
    while make_batch(card, operation, calls) < BATCH {
        calls *= 2;
    }
    calls
}

fn make_batch(card: &mut Card, (name, operation): Operation, calls: usize) -> Duration {
    let start = Instant::now();
    for _ in 0..calls {
        assert!(operation(black_box(card)), "{name} was not carried out");
    }
    start.elapsed()
}
