//! Compares the archive's calls with the published Rust's.
//!
//! Arguments: the interface, zero-based, managed or cards; how many calls; the seed;
//! and the kind of a planted fault (from 1; 0: none). With the interface and
//! the word kinds alone, prints how many kinds of planted faults it has.
//! Exit status: 0 no difference, 1 a difference or something that was not
//! reached, 2 anything else.

mod bench_table;
mod buffers;
mod calls;
mod cards;
mod data;
mod expectation;
mod factors;
mod guards;
mod managed;
mod places;
mod plant;
mod random;
mod sets;
mod zero_based;

use std::process::ExitCode;

use calls::End;

fn main() -> ExitCode {
    let words: Vec<String> = std::env::args().skip(1).collect();
    let words: Vec<&str> = words.iter().map(String::as_str).collect();
    match run(&words) {
        Some(End::AllMade) => ExitCode::SUCCESS,
        Some(End::Differs | End::NotReached) => ExitCode::from(1),
        Some(End::PlantedNotFound) => {
            println!("the planted fault was not found");
            ExitCode::from(2)
        }
        None => {
            eprintln!("usage: differential zero-based|managed|cards CALLS SEED KIND, or kinds");
            ExitCode::from(2)
        }
    }
}

/// None: the arguments are not as above.
fn run(words: &[&str]) -> Option<End> {
    let (interface, words) = words.split_first()?;
    let (kinds, run): (usize, fn(u64, u64, usize) -> End) = match *interface {
        "zero-based" => (zero_based::FAULTS.len(), zero_based::run),
        "managed" => (managed::FAULTS.len(), managed::run),
        "cards" => (cards::FAULTS.len(), cards::run),
        _ => return None,
    };
    match *words {
        ["kinds"] => {
            println!("{kinds}");
            Some(End::AllMade)
        }
        [calls, seed, kind] => {
            let kind = kind.parse().ok().filter(|&kind| kind <= kinds)?;
            Some(run(calls.parse().ok()?, seed.parse().ok()?, kind))
        }
        _ => None,
    }
}
