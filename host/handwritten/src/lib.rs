//! Reader, verifier, stepping machine and writer for modules, and the working out of their claims.
//!
//! Nothing is kept between calls: each one is handed the module's bytes, or its tables, and judges them afresh.
//! There is no heap, and no table on the stack above one kibibyte, but for the claims while they are worked out: these
//! take 19.
//!
//! Tuned by measuring: one bound serves for the budget and the end of the code, a last instruction that only goes on
//! is left out of the loop, operands are decoded where they are used, a range is one word, and code whose target has the
//! claim with which it was last gone through is left out of a sweep.

#![no_std]
#![forbid(unsafe_code)]

#[cfg(test)]
extern crate std;

mod claims;
mod decoder;
mod lookup;
mod machine;
mod ranges;
mod reader;
mod set;
mod verifier;
mod writer;

use claims::Claims;

// Addresses are 32 bits and are used as slice offsets.
const _: () = assert!(usize::BITS >= 32);

/// Why a module, a run or a set of tables was refused: the refusal's number and its place.
#[derive(Clone, Copy, Debug, PartialEq, Eq)]
pub struct Refusal {
    pub number: u32,
    pub place: u32,
}

/// A well-formed module: its layout and how much it holds.
#[derive(Clone, Copy, Debug, PartialEq, Eq)]
pub struct Module {
    pub base: u32,
    pub size: u32,
    pub guard: u32,
    pub instructions: u32,
    pub targets: u32,
}

/// Base, size and guard.
#[derive(Clone, Copy, Debug, PartialEq, Eq)]
pub struct Layout {
    pub base: u32,
    pub size: u32,
    pub guard: u32,
}

/// An instruction's row in a table that is to be written. The numbers may be any.
#[derive(Clone, Copy, Debug, PartialEq, Eq)]
pub struct InstructionRow {
    pub op: u32,
    pub a: u32,
    pub b: u32,
    pub w: u32,
    pub imm: u32,
}

/// A target's row, with the lowest and the highest value for each register. The numbers may be any.
#[derive(Clone, Copy, Debug, PartialEq, Eq)]
pub struct TargetRow {
    pub index: u32,
    pub kind: u32,
    pub claim: [[u32; 2]; 8],
}

/// How many instructions and targets a device holds.
#[derive(Clone, Copy, Debug, PartialEq, Eq)]
pub struct Limits {
    pub instructions: u32,
    pub targets: u32,
}

impl Limits {
    /// Those of the box: as many as a file can have.
    pub const BOX: Limits = Limits {
        instructions: reader::MAX_INSTRUCTIONS as u32,
        targets: reader::MAX_TARGETS as u32,
    };
}

/// A module that the verifier accepts.
#[derive(Clone, Copy, Debug, PartialEq, Eq)]
pub struct Accepted {
    pub instructions: u32,
    pub targets: u32,
}

/// What the sweeps of a module that is worked out came to.
#[derive(Clone, Copy, Debug, PartialEq, Eq)]
pub struct Sweeps {
    pub made: u32,
    /// The targets that no edge reached and that were given anything.
    pub given: u32,
    /// The registers of a target that became anything by growing in a ninth sweep.
    pub unbounded: u32,
}

/// The machine record that a run updates.
#[derive(Clone, Copy, Debug, PartialEq, Eq)]
pub struct Machine {
    pub registers: [u32; 8],
    pub pc: u16,
}

/// How a run ended.
#[derive(Clone, Copy, Debug, PartialEq, Eq)]
pub enum Ending {
    Halted,
    /// An access reached a guard zone.
    Trapped,
    /// A check met a value that is no indirect target.
    Denied,
    /// An access or a transfer left everything the module may reach.
    Violated,
    /// The budget is used and the run could go on.
    OutOfBudget,
}

/// The answer to a run; `steps` includes the ending step.
#[derive(Clone, Copy, Debug, PartialEq, Eq)]
pub struct Run {
    pub ending: Ending,
    pub steps: u64,
}

/// Judges the file's form: refusals 1 to 7.
pub fn read(file: &[u8]) -> Result<Module, Refusal> {
    let parts = reader::parts::<true>(file)?;
    Ok(Module {
        base: parts.layout.base,
        size: parts.layout.size,
        guard: parts.layout.guard,
        instructions: parts.code.len() as u32,
        targets: parts.targets.len() as u32,
    })
}

/// Judges the file's form, its counts for a device, and its claims: refusals 1 to 7, 17, and 8 to 13.
pub fn verify(limits: Limits, file: &[u8]) -> Result<Accepted, Refusal> {
    judge::<false>(limits, file)
}

/// Judges as [`verify`] does on the box, but with rule N as it was before document 02's ticket 1. Kept for the
/// comparison alone, which says how many modules' verdicts depend on the ticket: those must occur, or the new rule is
/// not compared.
pub fn verify_by_earlier_rule_n(file: &[u8]) -> Result<Accepted, Refusal> {
    judge::<true>(Limits::BOX, file)
}

fn judge<const EARLIER: bool>(limits: Limits, file: &[u8]) -> Result<Accepted, Refusal> {
    let parts = reader::parts::<true>(file)?;
    parts.judge_counts(limits)?;
    verifier::verify::<EARLIER>(&parts)?;
    Ok(parts.accepted())
}

/// Works out the claims of the direct targets and writes them over those in the file, if it is accepted with them.
/// Refusals 1 to 7, but for those claims, then 17, and then the verifier's; a refusal leaves the file as it was.
pub fn work_out(limits: Limits, file: &mut [u8]) -> Result<Accepted, Refusal> {
    let mut claims = Claims::NONE;
    let parts = reader::parts::<false>(file)?;
    parts.judge_counts(limits)?;
    claims.work_out(&parts);
    // The targets are the file's end.
    let targets = file.len() - parts.targets.as_flattened().len();
    claims.exchange(file[targets..].as_chunks_mut().0);
    let judged = judge::<false>(limits, file);
    if judged.is_err() {
        claims.exchange(file[targets..].as_chunks_mut().0);
    }
    judged
}

/// What the sweeps of [`work_out`] come to on the box, also where the verifier refuses what they lead to. Kept for the
/// comparison alone, which says what kinds of growth occurred.
pub fn sweeps(file: &[u8]) -> Result<Sweeps, Refusal> {
    let mut claims = Claims::NONE;
    claims.work_out(&reader::parts::<false>(file)?);
    Ok(claims.sweeps)
}

/// Writes the file that has these tables into the beginning of the buffer, and gives its length.
/// Refusals 3, 5, 6, 7 and 16; a refusal leaves the buffer as it was, and bytes past the file stay in any case.
pub fn write(
    layout: Layout,
    instructions: &[InstructionRow],
    targets: &[TargetRow],
    buffer: &mut [u8],
) -> Result<u32, Refusal> {
    writer::write(layout, instructions, targets, buffer)
}

/// Steps the machine at most `budget` times, with the region at `offset` in `memory`.
/// Refusals 1 to 7, 17, 14 and 15; a refused run changes nothing.
pub fn run(
    limits: Limits,
    file: &[u8],
    machine: &mut Machine,
    memory: &mut [u8],
    offset: usize,
    budget: u64,
) -> Result<Run, Refusal> {
    let (parts, region) = prepare(limits, file, machine, memory, offset)?;
    Ok(machine::run(&parts, machine, region, budget))
}

/// The module's parts and its region, or the refusal of a run.
fn prepare<'f, 'm>(
    limits: Limits,
    file: &'f [u8],
    machine: &Machine,
    memory: &'m mut [u8],
    offset: usize,
) -> Result<(reader::Parts<'f>, &'m mut [u8]), Refusal> {
    let parts = reader::parts::<true>(file)?;
    parts.judge_counts(limits)?;
    if usize::from(machine.pc) >= parts.code.len() {
        return Err(Refusal {
            number: 14,
            place: 0,
        });
    }
    let region = memory
        .get_mut(offset..)
        .and_then(|rest| rest.get_mut(..parts.layout.size as usize))
        .ok_or(Refusal {
            number: 15,
            place: 0,
        })?;
    Ok((parts, region))
}
