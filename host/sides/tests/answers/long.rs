//! Budgets and counts past 32 bits: document 02's ticket 6.

use modules::samples::counting;
use sides::ending::OUT_OF_BUDGET;
use sides::{Limits, Machine, Side};
use std::thread;

/// Just more than 32 bits hold, and whole rounds of the loop.
const LONG: u64 = (1 << 32) + 2;

/// Takes some ten seconds. Each side makes all steps, at the same time.
#[test]
fn a_count_passes_32_bits() {
    thread::scope(|scope| {
        for side in Side::BOTH {
            scope.spawn(move || {
                let file = counting().to_bytes();
                assert_eq!(side.verify(Limits::PLATE, &file), Ok([2, 1]));
                let mut machine = Machine::default();
                let mut memory = [7; 4096];
                let ran = side.run(Limits::PLATE, &file, &mut machine, &mut memory, 0, LONG);
                assert_eq!(ran, Ok((OUT_OF_BUDGET, LONG)), "{}", side.name());
                let registers = [(LONG / 2) as u32, 0, 0, 0, 0, 0, 0, 0];
                assert_eq!(machine, Machine { registers, pc: 0 });
                assert_eq!(memory, [7; 4096]);
            });
        }
    });
}
