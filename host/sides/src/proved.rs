//! The proved library, through its wrapper.

use crate::{Limits, Machine, Ran, Read, Refused, Verdict, Written};
use madsjirn::{Instruction, Layout, Range, Refusal, Run, Target, Verified};
use modules::{encode, tables};

fn refused(refusal: Refusal) -> Refused {
    (refusal.rule.number(), refusal.place)
}

#[inline]
fn told(limits: Limits) -> madsjirn::Limits {
    let Limits {
        instructions,
        targets,
    } = limits;
    madsjirn::Limits {
        instructions,
        targets,
    }
}

#[inline]
pub fn read(file: &[u8]) -> Read {
    let module = madsjirn::read(file).map_err(refused)?;
    let Layout { base, size, guard } = module.layout;
    Ok([base, size, guard, module.instructions, module.targets])
}

#[inline]
pub fn verify(limits: Limits, file: &[u8]) -> Verdict {
    verdict(madsjirn::verify(told(limits), file))
}

#[inline]
pub fn work_out(limits: Limits, file: &mut [u8]) -> Verdict {
    verdict(madsjirn::work_out(told(limits), file))
}

/// Tables as the wrapper takes them.
pub struct Tables {
    layout: Layout,
    instructions: Vec<Instruction>,
    targets: Vec<Target>,
}

impl Tables {
    pub fn new(tables: &tables::Tables) -> Tables {
        let encode::Layout { base, size, guard } = tables.layout;
        let instructions = tables.instructions.iter();
        let instructions = instructions.map(|row| Instruction {
            op: row.op,
            a: row.a,
            b: row.b,
            w: row.w,
            imm: row.imm,
        });
        let targets = tables.targets.iter().map(|row| Target {
            index: row.index,
            kind: row.kind,
            claim: row.claim.map(|(lowest, highest)| Range { lowest, highest }),
        });
        Tables {
            layout: Layout { base, size, guard },
            instructions: instructions.collect(),
            targets: targets.collect(),
        }
    }
}

#[inline]
pub fn write(tables: &Tables, buffer: &mut [u8]) -> Written {
    let Tables {
        layout,
        instructions,
        targets,
    } = tables;
    let written = madsjirn::write(*layout, instructions, targets, buffer);
    Ok(written.map_err(refused)? as u32)
}

#[inline]
fn verdict(verified: Result<Verified, Refusal>) -> Verdict {
    let verified = verified.map_err(refused)?;
    Ok([verified.instructions(), verified.targets()])
}

#[inline]
pub fn run(
    limits: Limits,
    file: &[u8],
    machine: &mut Machine,
    memory: &mut [u8],
    offset: usize,
    budget: u64,
) -> Ran {
    lend(machine, |machine| {
        madsjirn::run(told(limits), file, machine, memory, offset, budget)
    })
}

#[inline]
pub fn step(
    limits: Limits,
    file: &[u8],
    machine: &mut Machine,
    memory: &mut [u8],
    offset: usize,
) -> Ran {
    lend(machine, |machine| {
        madsjirn::step(told(limits), file, machine, memory, offset)
    })
}

#[inline]
fn lend(
    machine: &mut Machine,
    make: impl FnOnce(&mut madsjirn::Machine) -> Result<Run, Refusal>,
) -> Ran {
    let Machine { registers, pc } = *machine;
    let mut lent = madsjirn::Machine { registers, pc };
    let made = make(&mut lent);
    let madsjirn::Machine { registers, pc } = lent;
    *machine = Machine { registers, pc };
    let run = made.map_err(refused)?;
    Ok((run.ending.number(), run.steps))
}
