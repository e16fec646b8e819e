//! The common answer of both sides, and a verdict as a line. Where no limits are named it is the box's, and the plate's
//! is looked at too: the same, or 17.

use modules::encode::{code_bounds, target_bounds};
use modules::tables;
use sides::{Limits, Machine, Ran, Read, Refused, Side, Tables, Verdict, Written};
use std::fmt::Debug;

fn common<T: PartialEq + Debug>(answers: [T; 2]) -> T {
    let [proved, handwritten] = answers;
    assert_eq!(proved, handwritten, "proved and hand-written differ");
    proved
}

pub fn read(file: &[u8]) -> Read {
    common(Side::BOTH.map(|side| side.read(file)))
}

/// What the plate answers where the box answers this.
fn on_plate<T>(file: &[u8], on_box: Result<T, Refused>) -> Result<T, Refused> {
    let is_over = || code_bounds(file).len() > 512 * 8 || target_bounds(file).len() > 32 * 68;
    match on_box {
        Err((1..=7, _)) => on_box,
        _ if is_over() => Err((17, 0)),
        _ => on_box,
    }
}

pub fn verify(file: &[u8]) -> Verdict {
    let answer = verify_by(Limits::BOX, file);
    assert_eq!(verify_by(Limits::PLATE, file), on_plate(file, answer));
    answer
}

pub fn verify_by(limits: Limits, file: &[u8]) -> Verdict {
    common(Side::BOTH.map(|side| side.verify(limits, file)))
}

pub fn work_out(file: &mut [u8]) -> Verdict {
    let mut copied = file.to_vec();
    let answer = work_out_by(Limits::BOX, file);
    let due = on_plate(file, answer);
    assert_eq!(work_out_by(Limits::PLATE, &mut copied), due);
    assert!(due.is_err() || file == copied, "the plate's bytes differ");
    answer
}

/// Works out the claims on both sides, the first time on a copy. A refusal leaves every byte as it was; what is
/// accepted is so by `verify`, and worked out again it stays as it is.
pub fn work_out_by(limits: Limits, file: &mut [u8]) -> Verdict {
    let (before, mut copied) = (file.to_vec(), file.to_vec());
    let handwritten = Side::HandWritten.work_out(limits, &mut copied);
    let proved = Side::Proved.work_out(limits, file);
    assert!(file == copied, "the bytes differ");
    let answer = common([proved, handwritten]);
    if answer.is_err() {
        assert!(file == before, "a refusal changed the file");
    } else {
        assert_eq!(verify_by(limits, file), answer);
        let again = Side::BOTH.map(|side| side.work_out(limits, &mut copied));
        assert!(common(again) == answer && file == copied);
    }
    answer
}

/// Writes tables on both sides, the first time into a copy. A refusal leaves every byte as it was, and a file those
/// past it.
pub fn write(tables: &tables::Tables, buffer: &mut [u8]) -> Written {
    let tables = Tables::new(tables);
    let (before, mut copied) = (buffer.to_vec(), buffer.to_vec());
    let handwritten = Side::HandWritten.write(&tables, &mut copied);
    let proved = Side::Proved.write(&tables, buffer);
    assert!(buffer == copied, "the bytes differ");
    let answer = common([proved, handwritten]);
    let end = answer.map_or(0, |length| length as usize);
    assert!(buffer[end..] == before[end..], "other bytes changed");
    answer
}

/// The line that a gate program prints.
pub fn line(verdict: Verdict) -> String {
    match verdict {
        Ok([instructions, targets]) => format!("accepted {instructions} {targets}"),
        Err((number, place)) => format!("refused {number} {place}"),
    }
}

pub fn run(
    file: &[u8],
    machine: &mut Machine,
    memory: &mut [u8],
    offset: usize,
    budget: u64,
) -> Ran {
    on_both_devices(file, machine, memory, |limits, machine, memory| {
        run_by(limits, file, machine, memory, offset, budget)
    })
}

pub fn run_by(
    limits: Limits,
    file: &[u8],
    machine: &mut Machine,
    memory: &mut [u8],
    offset: usize,
    budget: u64,
) -> Ran {
    make(machine, memory, |side, machine, memory| {
        side.run(limits, file, machine, memory, offset, budget)
    })
}

pub fn step(file: &[u8], machine: &mut Machine, memory: &mut [u8], offset: usize) -> Ran {
    on_both_devices(file, machine, memory, |limits, machine, memory| {
        step_by(limits, file, machine, memory, offset)
    })
}

pub fn step_by(
    limits: Limits,
    file: &[u8],
    machine: &mut Machine,
    memory: &mut [u8],
    offset: usize,
) -> Ran {
    make(machine, memory, |side, machine, memory| {
        side.step(limits, file, machine, memory, offset)
    })
}

/// Makes a call on the box, and on the plate with copies. Both must leave the same.
fn on_both_devices(
    file: &[u8],
    machine: &mut Machine,
    memory: &mut [u8],
    call: impl Fn(Limits, &mut Machine, &mut [u8]) -> Ran,
) -> Ran {
    let (mut copied_machine, mut copied_memory) = (*machine, memory.to_vec());
    let plate = call(Limits::PLATE, &mut copied_machine, &mut copied_memory);
    let answer = call(Limits::BOX, machine, memory);
    assert_eq!(plate, on_plate(file, answer));
    if plate == answer {
        assert_eq!(copied_machine, *machine);
        assert!(copied_memory == memory, "the plate's memory differs");
    }
    answer
}

/// Makes a call on both sides, the first time on copies. A refusal leaves machine and memory as they were.
fn make(
    machine: &mut Machine,
    memory: &mut [u8],
    call: impl Fn(Side, &mut Machine, &mut [u8]) -> Ran,
) -> Ran {
    let (before_machine, before_memory) = (*machine, memory.to_vec());
    let (mut copied_machine, mut copied_memory) = (before_machine, before_memory.clone());
    let handwritten = call(Side::HandWritten, &mut copied_machine, &mut copied_memory);
    let proved = call(Side::Proved, machine, memory);
    common([*machine, copied_machine]);
    assert!(memory == copied_memory, "memory differs");
    let answer = common([proved, handwritten]);
    if answer.is_err() {
        assert_eq!(*machine, before_machine, "a refusal changed the machine");
        assert!(memory == before_memory, "a refusal changed the memory");
    }
    answer
}
