//! What a module is, what a run is made on and how it ends.

use core::fmt;

/// The machine record that a host lends to a run.
#[derive(Clone, Copy, Debug, Default, PartialEq, Eq, Hash)]
#[repr(C)]
pub struct Machine {
    /// The registers r0 to r7.
    pub registers: [u32; 8],
    /// The index of the next instruction; document 01's "place".
    pub pc: u16,
}

/// Where a module believes its memory to be.
#[derive(Clone, Copy, Debug, PartialEq, Eq, Hash)]
pub struct Layout {
    /// The address of the region's first byte.
    pub base: u32,
    /// The region's bytes.
    pub size: u32,
    /// The bytes of each guard zone, below the region and above it.
    pub guard: u32,
}

/// A readable module: one that keeps rules 1 to 7.
#[derive(Clone, Copy, Debug, PartialEq, Eq, Hash)]
pub struct Module {
    /// Base, size and guard.
    pub layout: Layout,
    /// How many instructions it has, 1 to 4,096.
    pub instructions: u32,
    /// How many targets (document 01's "doors") it has, 1 to 256.
    pub targets: u32,
}

/// How a run ended.
#[derive(Clone, Copy, Debug, PartialEq, Eq, PartialOrd, Ord, Hash)]
#[repr(u32)]
pub enum Ending {
    /// A halt was reached.
    Halted = 0,
    /// An access reached into a guard zone.
    Trapped = 1,
    /// A check found no indirect target's index in its register; document 01's "turned away".
    Denied = 2,
    /// An access reached past the guard zones, or a step led to no permitted place; document 01's "strayed".
    /// A run of an accepted module that begins at an indirect target never ends so: see [`Verified`](crate::Verified).
    Violated = 3,
    /// The budget is used and the run could go on; document 01's "spent".
    OutOfBudget = 4,
}

impl Ending {
    /// All endings, by number.
    pub const ALL: [Ending; 5] = [
        Ending::Halted,
        Ending::Trapped,
        Ending::Denied,
        Ending::Violated,
        Ending::OutOfBudget,
    ];

    /// The ending's number in the C interface, 0 to 4.
    pub fn number(self) -> u32 {
        self as u32
    }

    /// The ending with a number, if there is one.
    pub fn from_number(number: u32) -> Option<Ending> {
        Ending::ALL.get(usize::try_from(number).ok()?).copied()
    }
}

impl fmt::Display for Ending {
    fn fmt(&self, out: &mut fmt::Formatter<'_>) -> fmt::Result {
        out.write_str(match self {
            Ending::Halted => "halted",
            Ending::Trapped => "trapped",
            Ending::Denied => "denied (turned away)",
            Ending::Violated => "violated (strayed)",
            Ending::OutOfBudget => "out of budget (spent)",
        })
    }
}

/// A run that was made.
#[derive(Clone, Copy, Debug, PartialEq, Eq, Hash)]
pub struct Run {
    /// How it ended.
    pub ending: Ending,
    /// How many steps were made, the ending one included.
    pub steps: u64,
}
