//! Times the proved library beside the hand-written one, on the same inputs in one run.
//!
//! - `bench times`: nanoseconds, as bare numbers (`host/times` makes a table of them).
//! - `bench count SIDE WORK N`: does one piece of work N times and prints how many instructions were judged or
//!   written or steps made, for a tool that counts the processor's instructions.
//! - `bench write FOLDER`: writes the modules as files, and generated ones beside them.

mod time;
mod work;

use modules::generate::generate;
use modules::random::Random;
use sides::Side;
use std::env;
use std::process::ExitCode;
use work::{Bench, Work};

const USAGE: &str = "usage: bench times
       bench count proved|hand-written WORK N
       bench write FOLDER
WORK is read, verify, write, loop, mixed, judge-loop, judge-mixed, claims-mixed, claims-largest or claims-slowest,
or verify-T, step-T or judge-T for T targets: 2, 16, 64 or 256";

/// How many generated files `bench write` adds.
const GENERATED: u64 = 400;

fn main() -> ExitCode {
    let words: Vec<String> = env::args().skip(1).collect();
    let words: Vec<&str> = words.iter().map(String::as_str).collect();
    let done = match words[..] {
        ["times"] => {
            time::print_times();
            Some(())
        }
        ["count", side, work, times] => count(side, work, times),
        ["write", folder] => write(folder),
        _ => None,
    };
    match done {
        Some(()) => ExitCode::SUCCESS,
        None => {
            eprintln!("{USAGE}");
            ExitCode::FAILURE
        }
    }
}

fn count(side: &str, work: &str, times: &str) -> Option<()> {
    let side = Side::named(side)?;
    let work = Work::named(work)?;
    let times = times.parse().ok()?;
    let mut bench = Bench::new();
    bench.clear();
    println!("{}", bench.repeat(side, work, times));
    Some(())
}

fn write(folder: &str) -> Option<()> {
    let samples = Bench::new();
    for (name, file) in samples.files() {
        write_file(folder, &name, file)?;
    }
    for case in 0..GENERATED {
        let generated = generate(&mut Random::for_case(0, case));
        write_file(folder, &format!("generated-{case:03}"), &generated.file)?;
    }
    Some(())
}

fn write_file(folder: &str, name: &str, file: &[u8]) -> Option<()> {
    let path = format!("{folder}/{name}.module");
    let written = std::fs::write(&path, file);
    if let Err(error) = &written {
        eprintln!("{path}: {error}");
    }
    written.ok()
}
