//! `compare [SEED [MODULES [LISTS]]]`: compares the proved library with the hand-written one, and fails if anything
//! differs or if a refusal, an ending, a long budget, a wanted turn of a verdict, or a wanted kind of signed load, of
//! claims that are worked out, of tables that are written, of targets that are found, of limits or of single accesses
//! never occurred.

use compare::{compare, SEED};
use std::env;
use std::process::ExitCode;

const MODULES: u64 = 200_000;
const LISTS: u64 = 40_000;

fn main() -> ExitCode {
    let Some([seed, modules, lists]) = arguments() else {
        eprintln!("usage: compare [SEED [MODULES [LISTS]]]");
        return ExitCode::FAILURE;
    };
    println!("seed {seed}");
    let tally = match compare(seed, modules, lists) {
        Ok(tally) => tally,
        Err(difference) => {
            println!("DIFFERENT: {difference}");
            return ExitCode::FAILURE;
        }
    };
    print!("{tally}");
    let missing = tally.missing();
    if missing.is_empty() {
        println!("no difference; every refusal, ending, wanted turn and wanted kind occurred");
        ExitCode::SUCCESS
    } else {
        println!("NEVER OCCURRED: {}", missing.join(", "));
        ExitCode::FAILURE
    }
}

/// Seed, modules and lists, as far as they are named.
fn arguments() -> Option<[u64; 3]> {
    let mut numbers = [SEED, MODULES, LISTS];
    let words: Vec<String> = env::args().skip(1).collect();
    if words.len() > numbers.len() {
        return None;
    }
    for (number, word) in numbers.iter_mut().zip(&words) {
        *number = word.parse().ok()?;
    }
    Some(numbers)
}
