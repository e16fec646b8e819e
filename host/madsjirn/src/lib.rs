//! Judges, runs and writes modules with the proved library `libmadsjirn.a`.
//!
//! Every function takes anything: there is nothing to test beforehand. It gives the result or a
//! [`Refusal`], and a refusal leaves the machine and every byte of memory, file and buffer as they were.
//! Nothing is kept between calls: each gets the module's bytes, or its tables, and judges them. There is no heap.
//!
//! [`verify`] makes a [`Verified`] of an accepted module, and with it comes
//! [the promise](Verified#the-promise): begun at an indirect target, it never leaves its region and guard zones.
//! [`work_out`] does so too, for builders without a tool for claims: it writes the claims itself.
//! [`write`](write()) makes a module's file from its tables, with the instructions of [`assembly`].
//!
//! What judges a module for a device, or runs it there, is told the device's [`Limits`] first: those of the box or of
//! the scale plate.
//!
//! What the functions answer is proved. Not proved is this wrapper, which only turns numbers into types.
//!
//! # Document 01's loop
//!
//! ```
//! use madsjirn::assembly::*;
//! use madsjirn::{read, verify, write, Ending, Layout, Limits, Machine, Rule, Target};
//!
//! # fn main() -> Result<(), madsjirn::Refusal> {
//! let layout = Layout { base: 0x2000_0000, size: 4096, guard: 256 };
//! let instructions = [guard(R1), load(R0, R1, Width::Word, 0), addi(R1, 4), jump(1)];
//! let head = Target::direct(1).claim(R1, 0x2000_0000..=0x2000_1003);
//! let mut file = [0; 189];
//! let length = write(layout, &instructions, &[Target::indirect(0), head], &mut file)?;
//! assert_eq!(length, file.len());
//!
//! assert_eq!(read(&file)?.layout, layout);
//! let verified = verify(Limits::BOX, &file)?;
//! assert_eq!((verified.instructions(), verified.targets()), (4, 2));
//!
//! // The region is 4,096 bytes from offset 1,000 on; no other byte can change.
//! let mut memory = vec![0; 10_000];
//! let mut machine = Machine::default();
//! let first = verified.step(&mut machine, &mut memory, 1_000)?;
//! assert_eq!((first.ending, first.steps), (Ending::OutOfBudget, 1));
//! let rest = verified.run(&mut machine, &mut memory, 1_000, 1_000_000)?;
//! assert_eq!((rest.ending, rest.steps), (Ending::Trapped, 3_073));
//! assert_eq!((machine.pc, machine.registers[1]), (1, 0x2000_1000));
//!
//! let refusal = verified.run(&mut machine, &mut memory, 9_000, 1).unwrap_err();
//! assert_eq!((refusal.rule, refusal.place), (Rule::NoRoom, 0));
//! # Ok(())
//! # }
//! ```

#![no_std]
#![deny(missing_docs)]
#![deny(unsafe_code)]

mod answers;
pub mod assembly;
mod calls;
#[allow(unsafe_code)]
mod ffi;
mod limits;
mod members;
mod refusal;
mod tables;
mod verified;
mod writing;

pub use answers::{Ending, Layout, Machine, Module, Run};
pub use calls::{read, run, step};
pub use limits::Limits;
pub use refusal::{Refusal, Rule};
pub use tables::{Instruction, Range, Target, LONGEST_FILE};
pub use verified::{verify, work_out, Verified};
pub use writing::write;
