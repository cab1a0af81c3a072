//! Times the managed calls of the archive and of the published Rust on the same inputs; built
//! with `--cfg before`, those of two archives. Then the calls on cards, beside copies of as many
//! bytes; with `--cfg before_cards` those of two archives.
//!
//! Argument: the seed of the inputs. Exit status: 0 measured, 1 the two sides differ, else it
//! broke off.
#![allow(unknown_lints, unexpected_cfgs)]

mod batch;
mod cards;
mod check;
mod inputs;
mod measure;
#[allow(dead_code)]
#[path = "../tests/differential/random.rs"]
mod random;
mod sides;

/// The archive.
#[path = "."]
mod after {
    pub mod archive;
    #[allow(dead_code)]
    #[path = "../tests/differential/managed/declarations.rs"]
    mod declarations;
}

/// An earlier archive, whose names have a prefix: bench/run writes these declarations.
#[cfg(before)]
#[path = "."]
mod before {
    pub mod archive;
    #[allow(dead_code)]
    #[path = "../target/bench/declarations.rs"]
    mod declarations;
}

use std::process::ExitCode;

use inputs::{Inputs, CALLS};
use random::Random;

const DIMENSIONS: [usize; 7] = [1, 3, 10, 30, 100, 300, 1000];

fn main() -> ExitCode {
    let words: Vec<String> = std::env::args().skip(1).collect();
    let [word] = &words[..] else {
        return usage();
    };
    let Ok(seed) = word.parse() else {
        return usage();
    };
    let mut random = Random::new(seed);
    let all: Vec<Inputs> = DIMENSIONS
        .iter()
        .map(|&n| Inputs::new(n, &mut random))
        .collect();
    if let Err(what) = check::check_all(&all) {
        println!("the two sides differ: {what}");
        return ExitCode::from(1);
    }
    print_table(&all);
    cards::print_table(&all);
    ExitCode::SUCCESS
}

fn usage() -> ExitCode {
    eprintln!("usage: bench SEED");
    ExitCode::from(2)
}

fn print_table(all: &[Inputs]) {
    let [first, second] = measure::NAMES;
    println!("| call | n | {first}, ns | {second}, ns | {first} / {second} |");
    println!("|---|---:|---:|---:|---:|");
    for call in CALLS {
        for inputs in all {
            let [first, second] = measure::measure(inputs, call);
            let ratio = first / second;
            let (name, n) = (call.name(), inputs.n);
            println!(
                "| {name} | {n} | {} | {} | {ratio:.2} |",
                nanoseconds(first),
                nanoseconds(second)
            );
        }
    }
}

/// A tenth of a nanosecond shows only where there are few.
fn nanoseconds(value: f64) -> String {
    if value < 100.0 {
        format!("{value:.1}")
    } else {
        format!("{value:.0}")
    }
}
