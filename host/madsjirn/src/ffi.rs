//! The C interface of the proved library, `include/madsjirn.h`. All of this package's `unsafe` is here.

use crate::{Instruction, Layout, Limits, Machine, Target};

/// `MADSJIRN_REFUSED`: the ending of a run that was not made.
pub(crate) const REFUSED: u32 = 5;

/// `madsjirn_module`.
#[repr(C)]
pub(crate) struct Module {
    pub(crate) refusal: u32,
    pub(crate) place: u32,
    pub(crate) base: u32,
    pub(crate) size: u32,
    pub(crate) guard: u32,
    pub(crate) instructions: u32,
    pub(crate) targets: u32,
}

/// `madsjirn_verdict`.
#[repr(C)]
pub(crate) struct Verdict {
    pub(crate) refusal: u32,
    pub(crate) place: u32,
    pub(crate) instructions: u32,
    pub(crate) targets: u32,
}

/// `madsjirn_answer`.
#[repr(C)]
pub(crate) struct Answer {
    pub(crate) refusal: u32,
    pub(crate) place: u32,
    pub(crate) ending: u32,
    pub(crate) steps: u64,
}

/// `madsjirn_written`.
#[repr(C)]
pub(crate) struct Written {
    pub(crate) refusal: u32,
    pub(crate) place: u32,
    pub(crate) length: u32,
}

extern "C" {
    fn madsjirn_read(file: *const u8, file_length: usize) -> Module;
    fn madsjirn_verify(limits: Limits, file: *const u8, file_length: usize) -> Verdict;
    fn madsjirn_work_out(limits: Limits, file: *mut u8, file_length: usize) -> Verdict;
    fn madsjirn_run(
        limits: Limits,
        file: *const u8,
        file_length: usize,
        machine: *mut Machine,
        memory: *mut u8,
        memory_length: usize,
        offset: usize,
        budget: u64,
    ) -> Answer;
    fn madsjirn_step(
        limits: Limits,
        file: *const u8,
        file_length: usize,
        machine: *mut Machine,
        memory: *mut u8,
        memory_length: usize,
        offset: usize,
    ) -> Answer;
    fn madsjirn_write(
        base: u32,
        size: u32,
        guard: u32,
        instructions: *const Instruction,
        instruction_count: usize,
        targets: *const Target,
        target_count: usize,
        buffer: *mut u8,
        buffer_length: usize,
    ) -> Written;
}

pub(crate) fn read(file: &[u8]) -> Module {
    // SAFETY: a slice's pointer is not null and is valid to read for its length.
    // The function takes any bytes and keeps no pointer.
    unsafe { madsjirn_read(file.as_ptr(), file.len()) }
}

pub(crate) fn verify(limits: Limits, file: &[u8]) -> Verdict {
    // SAFETY: as for `read`. `Limits` has the layout of `madsjirn_limits`, and the function takes any.
    unsafe { madsjirn_verify(limits, file.as_ptr(), file.len()) }
}

pub(crate) fn work_out(limits: Limits, file: &mut [u8]) -> Verdict {
    // SAFETY: as for `verify`, and the slice is borrowed mutably, so that it is valid to write too.
    unsafe { madsjirn_work_out(limits, file.as_mut_ptr(), file.len()) }
}

pub(crate) fn run(
    limits: Limits,
    file: &[u8],
    machine: &mut Machine,
    memory: &mut [u8],
    offset: usize,
    budget: u64,
) -> Answer {
    // SAFETY: the pointers are valid for their lengths and not null, since they come from references;
    // `machine` and `memory` are borrowed mutably, so the three do not overlap. `Limits` and `Machine` have the
    // layouts of `madsjirn_limits` and `madsjirn_machine`. The function takes any limits, bytes, machine, offset and
    // budget, and keeps no pointer.
    unsafe {
        madsjirn_run(
            limits,
            file.as_ptr(),
            file.len(),
            machine,
            memory.as_mut_ptr(),
            memory.len(),
            offset,
            budget,
        )
    }
}

pub(crate) fn step(
    limits: Limits,
    file: &[u8],
    machine: &mut Machine,
    memory: &mut [u8],
    offset: usize,
) -> Answer {
    // SAFETY: as for `run`.
    unsafe {
        madsjirn_step(
            limits,
            file.as_ptr(),
            file.len(),
            machine,
            memory.as_mut_ptr(),
            memory.len(),
            offset,
        )
    }
}

pub(crate) fn write(
    layout: Layout,
    instructions: &[Instruction],
    targets: &[Target],
    buffer: &mut [u8],
) -> Written {
    // SAFETY: the pointers are valid for their lengths and not null, since they come from slices; `buffer` is
    // borrowed mutably, so nothing overlaps it. `Instruction` and `Target` have the layout of
    // `madsjirn_instruction` and `madsjirn_target`. The function takes any numbers and keeps no pointer.
    unsafe {
        madsjirn_write(
            layout.base,
            layout.size,
            layout.guard,
            instructions.as_ptr(),
            instructions.len(),
            targets.as_ptr(),
            targets.len(),
            buffer.as_mut_ptr(),
            buffer.len(),
        )
    }
}
