//! Instructions by name, for the tables that [`write`](crate::write()) takes. What each does is said in
//! docs/MODULES.md.
//!
//! ```
//! use madsjirn::assembly::*;
//! use madsjirn::Instruction;
//!
//! assert_eq!(load(R0, R1, Width::Half, -2), Instruction { op: 10, a: 0, b: 1, w: 2, imm: 0xFFFF_FFFE });
//! assert_eq!(branch(R6, R5, Test::Below, 1), Instruction { op: 13, a: 6, b: 5, w: 1, imm: 1 });
//! ```

use crate::tables::Instruction;

pub use Register::{R0, R1, R2, R3, R4, R5, R6, R7};

/// A register.
#[derive(Clone, Copy, Debug, PartialEq, Eq, PartialOrd, Ord, Hash)]
#[repr(u32)]
#[allow(missing_docs)]
pub enum Register {
    R0,
    R1,
    R2,
    R3,
    R4,
    R5,
    R6,
    R7,
}

/// How many bytes an access moves, and whether a load carries their sign up.
#[derive(Clone, Copy, Debug, PartialEq, Eq, Hash)]
#[repr(u32)]
pub enum Width {
    /// One byte.
    Byte = 1,
    /// Two bytes.
    Half = 2,
    /// Four bytes.
    Word = 4,
    /// One byte, with its sign carried up through 32 bits. Only a load has it.
    SignedByte = 129,
    /// Two bytes, with their sign carried up through 32 bits. Only a load has it.
    SignedHalf = 130,
}

/// The test of a branch.
#[derive(Clone, Copy, Debug, PartialEq, Eq, Hash)]
#[repr(u32)]
pub enum Test {
    /// a = b.
    Equal = 0,
    /// a < b, unsigned.
    Below = 1,
    /// a < b, in two's complement.
    SignedBelow = 2,
}

const fn of(op: u32) -> Instruction {
    Instruction {
        op,
        a: 0,
        b: 0,
        w: 0,
        imm: 0,
    }
}

const fn of_one(op: u32, a: Register) -> Instruction {
    Instruction {
        a: a as u32,
        ..of(op)
    }
}

const fn of_two(op: u32, a: Register, b: Register) -> Instruction {
    Instruction {
        b: b as u32,
        ..of_one(op, a)
    }
}

/// Ends the run.
pub const fn halt() -> Instruction {
    of(0)
}

/// a := imm.
pub const fn set(a: Register, imm: u32) -> Instruction {
    Instruction {
        imm,
        ..of_one(1, a)
    }
}

/// a := b.
pub const fn copy(a: Register, b: Register) -> Instruction {
    of_two(2, a, b)
}

/// a := a + b.
pub const fn add(a: Register, b: Register) -> Instruction {
    of_two(3, a, b)
}

/// a := a + imm.
pub const fn addi(a: Register, imm: i32) -> Instruction {
    Instruction {
        imm: imm as u32,
        ..of_one(4, a)
    }
}

/// a := a − b.
pub const fn sub(a: Register, b: Register) -> Instruction {
    of_two(5, a, b)
}

/// a := a and imm, bit by bit.
pub const fn andi(a: Register, imm: u32) -> Instruction {
    Instruction {
        imm,
        ..of_one(6, a)
    }
}

/// a := base + (a mod size), an address of the region.
pub const fn guard(a: Register) -> Instruction {
    of_one(7, a)
}

/// a shifted right, unsigned. [`write`](crate::write()) refuses an amount above 31 with 6.
pub const fn shr(a: Register, amount: u32) -> Instruction {
    Instruction {
        w: amount,
        ..of_one(8, a)
    }
}

/// a shifted right, arithmetic. [`write`](crate::write()) refuses an amount above 31 with 6.
pub const fn sar(a: Register, amount: u32) -> Instruction {
    Instruction {
        w: amount,
        ..of_one(9, a)
    }
}

/// a := the bytes at b + imm.
pub const fn load(a: Register, b: Register, width: Width, imm: i32) -> Instruction {
    Instruction {
        w: width as u32,
        imm: imm as u32,
        ..of_two(10, a, b)
    }
}

/// The low bytes of a to b + imm. [`write`](crate::write()) refuses a signed width with 6.
pub const fn store(a: Register, b: Register, width: Width, imm: i32) -> Instruction {
    Instruction {
        w: width as u32,
        imm: imm as u32,
        ..of_two(11, a, b)
    }
}

/// To the target at an index.
pub const fn jump(index: u32) -> Instruction {
    Instruction {
        imm: index,
        ..of(12)
    }
}

/// To the target at an index if the test of a and b holds, else on.
pub const fn branch(a: Register, b: Register, test: Test, index: u32) -> Instruction {
    Instruction {
        w: test as u32,
        imm: index,
        ..of_two(13, a, b)
    }
}

/// Denied unless a is an indirect target's index.
pub const fn check(a: Register) -> Instruction {
    of_one(14, a)
}

/// To the indirect target whose index is in a. A check of a stands just before it.
pub const fn jumpr(a: Register) -> Instruction {
    of_one(15, a)
}
