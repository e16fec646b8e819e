//! Judging a module, and what is promised of one that is accepted.

use crate::answers::{Machine, Run};
use crate::calls::{judged, run, step};
use crate::ffi;
use crate::limits::Limits;
use crate::refusal::Refusal;

/// Judges a module for a device: rules 1 to 7, then 17, then 8 to 13. It is accepted exactly if it keeps them all.
///
/// ```
/// use madsjirn::{verify, Limits, Rule};
///
/// let refusal = verify(Limits::BOX, b"").unwrap_err();
/// assert_eq!((refusal.rule, refusal.place), (Rule::Truncated, 0));
/// ```
///
/// # Panics
///
/// If the library's answer is none that the C interface allows, which the proved library never gives.
pub fn verify(limits: Limits, file: &[u8]) -> Result<Verified<'_>, Refusal> {
    accepted(ffi::verify(limits, file), limits, file)
}

/// Works out the claims of a module's direct targets, so that its builder need not, and judges it with them for a
/// device.
///
/// The claims that stand in `file` are ignored. If the module is accepted with those worked out, they are written over
/// them, and no other byte changes; [`verify`] then accepts it too. Else the refusal leaves every byte as it was.
/// Refusals are 1 to 7, where those claims break no rule, then 17, before anything is worked out, and then 8 to 13 but
/// never 11.
///
/// ```
/// use madsjirn::assembly::*;
/// use madsjirn::{verify, work_out, write, Layout, Limits, Rule, Target};
///
/// # fn main() -> Result<(), madsjirn::Refusal> {
/// let layout = Layout { base: 0x2000_0000, size: 4096, guard: 4 };
/// let instructions = [guard(R1), load(R0, R1, Width::Word, 0), addi(R1, 4), jump(1)];
/// let mut file = [0; 189];
/// write(layout, &instructions, &[Target::indirect(0), Target::direct(1)], &mut file)?;
/// // Anything is claimed for r1 at index 1, and then the load may reach anywhere.
/// assert_eq!(verify(Limits::PLATE, &file).unwrap_err().rule, Rule::WildAccess);
///
/// let worked_out = work_out(Limits::PLATE, &mut file)?;
/// assert_eq!((worked_out.instructions(), worked_out.targets()), (4, 2));
/// // Now r1 is claimed to lie in the region or just above it.
/// assert_eq!(file[133..141], [0x00, 0x00, 0x00, 0x20, 0x00, 0x10, 0x00, 0x20]);
/// assert!(verify(Limits::PLATE, &file).is_ok());
/// # Ok(())
/// # }
/// ```
///
/// # Panics
///
/// If the library's answer is none that the C interface allows, which the proved library never gives.
pub fn work_out(limits: Limits, file: &mut [u8]) -> Result<Verified<'_>, Refusal> {
    accepted(ffi::work_out(limits, file), limits, file)
}

fn accepted(verdict: ffi::Verdict, limits: Limits, file: &[u8]) -> Result<Verified<'_>, Refusal> {
    let (instructions, targets) = (verdict.instructions, verdict.targets);
    judged(
        verdict.refusal,
        verdict.place,
        [instructions, targets] == [0; 2],
    )?;
    Ok(Verified {
        limits,
        file,
        instructions,
        targets,
    })
}

/// An accepted module: bytes that keep rules 1 to 13 and are within a device's limits, borrowed, so that they stay what
/// was judged.
///
/// # The promise
///
/// Let a run begin with a machine whose pc is an indirect target (document 01's "open door"; index 0 is one in every
/// module) and whose registers are anything. Then neither it nor any later run on the machine that it left ends in
/// [`Ending::Violated`](crate::Ending::Violated), whatever the host writes into the region before and between
/// them. Every byte that they reach for is in the region or its guard zones.
///
/// The promise is lost where the host sets the pc to what is no indirect target, or changes the registers of a
/// machine that stands elsewhere.
///
/// ```
/// use madsjirn::assembly::*;
/// use madsjirn::{verify, write, Ending, Layout, Limits, Machine, Target};
///
/// # fn main() -> Result<(), madsjirn::Refusal> {
/// let layout = Layout { base: 0x2000_0000, size: 4096, guard: 256 };
/// let instructions = [guard(R1), load(R0, R1, Width::Word, 0), halt()];
/// let mut file = [0; 113];
/// write(layout, &instructions, &[Target::indirect(0)], &mut file)?;
///
/// let verified = verify(Limits::BOX, &file)?;
/// assert_eq!((verified.instructions(), verified.targets()), (3, 1));
///
/// let mut machine = Machine { registers: [0xffff_ffff; 8], pc: 0 };
/// let mut memory = [0; 4096];
/// let first = verified.step(&mut machine, &mut memory, 0)?;
/// assert_eq!(first.ending, Ending::OutOfBudget);
/// memory.fill(0xff); // whatever the host writes
/// let rest = verified.run(&mut machine, &mut memory, 0, 1_000)?;
/// assert_eq!((rest.ending, machine.registers[1]), (Ending::Trapped, 0x2000_0fff));
/// # Ok(())
/// # }
/// ```
///
/// Only [`verify`] and [`work_out`] make one:
///
/// ```compile_fail,E0451
/// use madsjirn::{Limits, Verified};
///
/// let forged = Verified { limits: Limits::BOX, file: b"no module", instructions: 1, targets: 1 };
/// ```
///
/// And its bytes cannot change while it is there:
///
/// ```compile_fail,E0506
/// let mut file = [0; 189];
/// let verified = madsjirn::verify(madsjirn::Limits::BOX, &file);
/// file[18] = 10;
/// drop(verified);
/// ```
#[derive(Clone, Copy, Debug, PartialEq, Eq, Hash)]
pub struct Verified<'a> {
    limits: Limits,
    file: &'a [u8],
    instructions: u32,
    targets: u32,
}

impl<'a> Verified<'a> {
    /// The module's bytes.
    pub fn file(&self) -> &'a [u8] {
        self.file
    }

    /// The limits of the device for which it was judged. Its runs are made by them, and so never refused by 17.
    pub fn limits(&self) -> Limits {
        self.limits
    }

    /// How many instructions it has, 1 to 4,096.
    pub fn instructions(&self) -> u32 {
        self.instructions
    }

    /// How many targets (document 01's "doors") it has, 1 to 256.
    pub fn targets(&self) -> u32 {
        self.targets
    }

    /// Runs it for at most `budget` steps, with [the promise](Verified#the-promise).
    ///
    /// Its region is the layout's size bytes of `memory` from `offset` on. It changes the machine and bytes of the
    /// region, and no other byte. Refusals are 14 and 15 alone, and leave machine and memory as they were.
    ///
    /// # Panics
    ///
    /// If the library's answer is none that the C interface allows, which the proved library never gives.
    pub fn run(
        &self,
        machine: &mut Machine,
        memory: &mut [u8],
        offset: usize,
        budget: u64,
    ) -> Result<Run, Refusal> {
        run(self.limits, self.file, machine, memory, offset, budget)
    }

    /// Makes one step: a [`Verified::run`] with budget 1.
    ///
    /// A step after which the run could go on answers [`Ending::OutOfBudget`](crate::Ending::OutOfBudget).
    ///
    /// # Panics
    ///
    /// If the library's answer is none that the C interface allows, which the proved library never gives.
    pub fn step(
        &self,
        machine: &mut Machine,
        memory: &mut [u8],
        offset: usize,
    ) -> Result<Run, Refusal> {
        step(self.limits, self.file, machine, memory, offset)
    }
}
