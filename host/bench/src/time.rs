//! Nanoseconds: both sides in turn, several rounds, the least of each.

use crate::work::{Bench, Work};
use sides::Side;
use std::time::{Duration, Instant};

const ROUNDS: usize = 250;

/// Work that takes longer than a measurement is measured in fewer rounds, but in so many at least.
const LEAST_ROUNDS: usize = 3;

/// About how long the slower takes for a measurement: so short that on a busy machine too some are not
/// interrupted.
const MEASUREMENT: Duration = Duration::from_millis(2);

/// A line for each piece of work: its name, its unit and the time of each side.
pub fn print_times() {
    let mut bench = Bench::new();
    for work in Work::all() {
        let [proved, handwritten] = measure(&mut bench, work);
        println!("{} {} {proved} {handwritten}", work.name(), work.unit());
    }
}

/// Nanoseconds per unit of work, of each side.
fn measure(bench: &mut Bench, work: Work) -> [f64; 2] {
    let once = duration(bench, work).as_nanos();
    let times = (MEASUREMENT.as_nanos() / once).clamp(1, 1_000_000) as u32;
    let rounds = (ROUNDS as u128 * MEASUREMENT.as_nanos() / once) as usize;
    let mut least = [f64::INFINITY; 2];
    for round in 0..rounds.clamp(LEAST_ROUNDS, ROUNDS) {
        bench.clear();
        // Each is the first in every other round.
        for turn in 0..2 {
            let side = Side::BOTH[(round + turn) % 2];
            let begin = Instant::now();
            let units = bench.repeat(side, work, times);
            let taken = begin.elapsed().as_secs_f64() * 1e9 / units as f64;
            let least = &mut least[side as usize];
            *least = least.min(taken);
        }
        assert!(bench.memories_agree(), "{}: memory differs", work.name());
    }
    least
}

/// About how long the slower takes for the work, and not 0.
fn duration(bench: &mut Bench, work: Work) -> Duration {
    let slower = Side::BOTH.into_iter().map(|side| {
        let mut least = Duration::MAX;
        for _ in 0..20 {
            let begin = Instant::now();
            bench.repeat(side, work, 1);
            least = least.min(begin.elapsed());
            if least > MEASUREMENT {
                break;
            }
        }
        least
    });
    let slower = slower.max().expect("there are two");
    slower.max(Duration::from_nanos(1))
}
