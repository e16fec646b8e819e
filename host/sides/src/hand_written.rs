//! The hand-written implementation.

use crate::{ending, Limits, Machine, Ran, Read, Refused, Verdict, Written};
use handwritten::{Accepted, Ending, InstructionRow, Layout, Module, Refusal, Sweeps, TargetRow};
use modules::{encode, tables};

fn refused(refusal: Refusal) -> Refused {
    (refusal.number, refusal.place)
}

#[inline]
fn told(limits: Limits) -> handwritten::Limits {
    let Limits {
        instructions,
        targets,
    } = limits;
    handwritten::Limits {
        instructions,
        targets,
    }
}

fn number(ending: Ending) -> u32 {
    match ending {
        Ending::Halted => ending::HALTED,
        Ending::Trapped => ending::TRAPPED,
        Ending::Denied => ending::DENIED,
        Ending::Violated => ending::VIOLATED,
        Ending::OutOfBudget => ending::OUT_OF_BUDGET,
    }
}

#[inline]
pub fn read(file: &[u8]) -> Read {
    let Module {
        base,
        size,
        guard,
        instructions,
        targets,
    } = handwritten::read(file).map_err(refused)?;
    Ok([base, size, guard, instructions, targets])
}

#[inline]
pub fn verify(limits: Limits, file: &[u8]) -> Verdict {
    verdict(handwritten::verify(told(limits), file))
}

/// The box's verdict by rule N as it was before document 02's ticket 1: what the ticket turns is told by it.
pub fn verify_by_earlier_rule_n(file: &[u8]) -> Verdict {
    verdict(handwritten::verify_by_earlier_rule_n(file))
}

#[inline]
pub fn work_out(limits: Limits, file: &mut [u8]) -> Verdict {
    verdict(handwritten::work_out(told(limits), file))
}

/// What the sweeps of `work_out` come to: the kinds of growth are told by it.
pub fn sweeps(file: &[u8]) -> Result<Sweeps, Refused> {
    handwritten::sweeps(file).map_err(refused)
}

/// Tables as it takes them.
pub struct Tables {
    layout: Layout,
    instructions: Vec<InstructionRow>,
    targets: Vec<TargetRow>,
}

impl Tables {
    pub fn new(tables: &tables::Tables) -> Tables {
        let encode::Layout { base, size, guard } = tables.layout;
        let instructions = tables.instructions.iter();
        let instructions = instructions.map(|row| InstructionRow {
            op: row.op,
            a: row.a,
            b: row.b,
            w: row.w,
            imm: row.imm,
        });
        let targets = tables.targets.iter().map(|row| TargetRow {
            index: row.index,
            kind: row.kind,
            claim: row.claim.map(<[u32; 2]>::from),
        });
        Tables {
            layout: Layout { base, size, guard },
            instructions: instructions.collect(),
            targets: targets.collect(),
        }
    }
}

#[inline]
pub fn write(tables: &Tables, buffer: &mut [u8]) -> Written {
    let Tables {
        layout,
        instructions,
        targets,
    } = tables;
    handwritten::write(*layout, instructions, targets, buffer).map_err(refused)
}

#[inline]
fn verdict(verified: Result<Accepted, Refusal>) -> Verdict {
    let accepted = verified.map_err(refused)?;
    Ok([accepted.instructions, accepted.targets])
}

#[inline]
pub fn run(
    limits: Limits,
    file: &[u8],
    machine: &mut Machine,
    memory: &mut [u8],
    offset: usize,
    budget: u64,
) -> Ran {
    let Machine { registers, pc } = *machine;
    let mut lent = handwritten::Machine { registers, pc };
    let made = handwritten::run(told(limits), file, &mut lent, memory, offset, budget);
    let handwritten::Machine { registers, pc } = lent;
    *machine = Machine { registers, pc };
    let run = made.map_err(refused)?;
    Ok((number(run.ending), run.steps))
}
