//! A module's tables, as [`write`](crate::write()) takes them: layout, instructions and targets.

use crate::assembly::Register;
use core::ops::RangeInclusive;

/// The bytes of the longest module file: a buffer of so many has space for every module.
pub const LONGEST_FILE: usize = 50_197;

/// An instruction: a row of numbers, as the file has them. [`assembly`](crate::assembly) makes instructions by name.
///
/// Any numbers can stand here. [`write`](crate::write()) refuses what is no instruction with 6.
#[derive(Clone, Copy, Debug, Default, PartialEq, Eq, Hash)]
#[repr(C)]
pub struct Instruction {
    /// The opcode, 0 to 15.
    pub op: u32,
    /// A register, 0 to 7.
    pub a: u32,
    /// A register, 0 to 7.
    pub b: u32,
    /// The width of an access, the amount of a shift or the test of a branch.
    pub w: u32,
    /// A number or an index; a signed one in two's complement.
    pub imm: u32,
}

/// The values that a register is claimed to hold.
#[derive(Clone, Copy, Debug, PartialEq, Eq, Hash)]
#[repr(C)]
pub struct Range {
    /// The lowest value.
    pub lowest: u32,
    /// The highest value.
    pub highest: u32,
}

impl Range {
    /// The range of every word.
    pub const ANYTHING: Range = Range {
        lowest: 0,
        highest: u32::MAX,
    };
}

/// A target; document 01's "door". Any numbers can stand here: [`write`](crate::write()) refuses a bad one with 7.
///
/// ```
/// use madsjirn::assembly::R1;
/// use madsjirn::{Range, Target};
///
/// let head = Target::direct(1).claim(R1, 0x2000_0000..=0x2000_1003);
/// assert_eq!((head.index, head.kind), (1, Target::DIRECT));
/// assert_eq!(head.claim[0], Range::ANYTHING);
/// assert_eq!(head.claim[1], Range { lowest: 0x2000_0000, highest: 0x2000_1003 });
/// ```
#[derive(Clone, Copy, Debug, PartialEq, Eq, Hash)]
#[repr(C)]
pub struct Target {
    /// The index of an instruction.
    pub index: u32,
    /// [`Target::DIRECT`] or [`Target::INDIRECT`].
    pub kind: u32,
    /// What r0 to r7 are claimed to hold there.
    pub claim: [Range; 8],
}

impl Target {
    /// The kind of a direct target; document 01's "inner".
    pub const DIRECT: u32 = 0;
    /// The kind of an indirect target; document 01's "open".
    pub const INDIRECT: u32 = 1;

    /// An indirect target, to which hosts and `jumpr` may go. It claims anything for each register, as it must.
    pub const fn indirect(index: u32) -> Target {
        Target {
            index,
            kind: Target::INDIRECT,
            claim: [Range::ANYTHING; 8],
        }
    }

    /// A direct target, to which jumps and branches of the module go. It claims anything for each register, until
    /// [`Target::claim`] says otherwise; [`work_out`](crate::work_out) works out its claim in the written file.
    pub const fn direct(index: u32) -> Target {
        Target {
            kind: Target::DIRECT,
            ..Target::indirect(index)
        }
    }

    /// The target with another claim for one register: from a lowest to a highest value.
    #[must_use]
    pub const fn claim(mut self, register: Register, range: RangeInclusive<u32>) -> Target {
        self.claim[register as usize] = Range {
            lowest: *range.start(),
            highest: *range.end(),
        };
        self
    }
}
