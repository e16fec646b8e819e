//! The proved library and the hand-written one behind one interface, with plain numbers as answers. The tests, the
//! comparison and the benchmark go by it.

mod hand_written;
mod proved;
mod tables;

pub use hand_written::{sweeps, verify_by_earlier_rule_n};
pub use handwritten::Sweeps;
pub use tables::Tables;

/// Number and place of a refusal.
pub type Refused = (u32, u32);

/// Base, size, guard, instructions, targets.
pub type Read = Result<[u32; 5], Refused>;

/// Instructions, targets.
pub type Verdict = Result<[u32; 2], Refused>;

/// The ending's number, and the steps.
pub type Ran = Result<(u32, u64), Refused>;

/// The file's length.
pub type Written = Result<u32, Refused>;

/// The endings' numbers, those of the C interface.
pub mod ending {
    use madsjirn::Ending;

    pub const HALTED: u32 = Ending::Halted as u32;
    pub const TRAPPED: u32 = Ending::Trapped as u32;
    pub const DENIED: u32 = Ending::Denied as u32;
    pub const VIOLATED: u32 = Ending::Violated as u32;
    pub const OUT_OF_BUDGET: u32 = Ending::OutOfBudget as u32;
}

/// How many instructions and targets a device holds.
#[derive(Clone, Copy, Debug, PartialEq, Eq)]
pub struct Limits {
    pub instructions: u32,
    pub targets: u32,
}

impl Limits {
    pub const BOX: Limits = Limits {
        instructions: 4096,
        targets: 256,
    };

    pub const PLATE: Limits = Limits {
        instructions: 512,
        targets: 32,
    };

    /// Whether a module with these counts keeps within them.
    pub fn hold(self, instructions: u32, targets: u32) -> bool {
        instructions <= self.instructions && targets <= self.targets
    }
}

/// The machine record.
#[derive(Clone, Copy, Debug, Default, PartialEq, Eq)]
pub struct Machine {
    pub registers: [u32; 8],
    pub pc: u16,
}

/// One of the two implementations.
#[derive(Clone, Copy, Debug, PartialEq, Eq)]
pub enum Side {
    Proved,
    HandWritten,
}

impl Side {
    pub const BOTH: [Side; 2] = [Side::Proved, Side::HandWritten];

    pub fn name(self) -> &'static str {
        match self {
            Side::Proved => "proved",
            Side::HandWritten => "hand-written",
        }
    }

    pub fn named(name: &str) -> Option<Side> {
        Side::BOTH.into_iter().find(|side| side.name() == name)
    }

    #[inline]
    pub fn read(self, file: &[u8]) -> Read {
        match self {
            Side::Proved => proved::read(file),
            Side::HandWritten => hand_written::read(file),
        }
    }

    #[inline]
    pub fn verify(self, limits: Limits, file: &[u8]) -> Verdict {
        match self {
            Side::Proved => proved::verify(limits, file),
            Side::HandWritten => hand_written::verify(limits, file),
        }
    }

    #[inline]
    pub fn work_out(self, limits: Limits, file: &mut [u8]) -> Verdict {
        match self {
            Side::Proved => proved::work_out(limits, file),
            Side::HandWritten => hand_written::work_out(limits, file),
        }
    }

    /// Writes the file that has these tables into the beginning of the buffer.
    #[inline]
    pub fn write(self, tables: &Tables, buffer: &mut [u8]) -> Written {
        match self {
            Side::Proved => proved::write(&tables.proved, buffer),
            Side::HandWritten => hand_written::write(&tables.hand_written, buffer),
        }
    }

    #[inline]
    pub fn run(
        self,
        limits: Limits,
        file: &[u8],
        machine: &mut Machine,
        memory: &mut [u8],
        offset: usize,
        budget: u64,
    ) -> Ran {
        match self {
            Side::Proved => proved::run(limits, file, machine, memory, offset, budget),
            Side::HandWritten => hand_written::run(limits, file, machine, memory, offset, budget),
        }
    }

    #[inline]
    pub fn step(
        self,
        limits: Limits,
        file: &[u8],
        machine: &mut Machine,
        memory: &mut [u8],
        offset: usize,
    ) -> Ran {
        match self {
            Side::Proved => proved::step(limits, file, machine, memory, offset),
            // It has no function of its own: a step is a run with budget 1.
            Side::HandWritten => hand_written::run(limits, file, machine, memory, offset, 1),
        }
    }
}
