//! A module's tables as a builder hands them over to be written: numbers of 32 bits, also such as fit no field of the
//! file. Nothing is checked.

use crate::encode::{code_bounds, target_bounds, Instruction, Layout, Module, Range, Target};

/// An instruction's row.
#[derive(Clone, Copy, Debug, Default, PartialEq, Eq)]
pub struct InstructionRow {
    pub op: u32,
    pub a: u32,
    pub b: u32,
    pub w: u32,
    pub imm: u32,
}

/// A target's row. The file's zero byte is not in it.
#[derive(Clone, Copy, Debug, PartialEq, Eq)]
pub struct TargetRow {
    pub index: u32,
    pub kind: u32,
    pub claim: [Range; 8],
}

/// Layout, instructions and targets.
#[derive(Clone, Debug, PartialEq, Eq)]
pub struct Tables {
    pub layout: Layout,
    pub instructions: Vec<InstructionRow>,
    pub targets: Vec<TargetRow>,
}

impl Tables {
    /// The tables of a file that no rule before 5 refuses, read from its bytes.
    pub fn decode(file: &[u8]) -> Tables {
        let [base, size, guard] = [3, 7, 11].map(|at| word(&file[at..]));
        let instructions = file[code_bounds(file)].chunks_exact(8);
        let targets = file[target_bounds(file)].chunks_exact(68);
        Tables {
            layout: Layout { base, size, guard },
            instructions: instructions.map(InstructionRow::decode).collect(),
            targets: targets.map(TargetRow::decode).collect(),
        }
    }

    pub fn of(module: &Module) -> Tables {
        Tables {
            layout: module.layout,
            instructions: module.code.iter().map(InstructionRow::of).collect(),
            targets: module.targets.iter().map(TargetRow::of).collect(),
        }
    }

    /// The module with these tables. A number that doesn't fit its field becomes the largest that does: that one is out
    /// of range there too, so that rules 5, 6 and 7 say of the module what they say of the tables.
    pub fn narrowed(&self) -> Module {
        Module {
            layout: self.layout,
            code: self
                .instructions
                .iter()
                .map(InstructionRow::narrowed)
                .collect(),
            targets: self.targets.iter().map(TargetRow::narrowed).collect(),
        }
    }
}

impl InstructionRow {
    fn decode(bytes: &[u8]) -> InstructionRow {
        let [op, a, b, w] = [0, 1, 2, 3].map(|at| u32::from(bytes[at]));
        let imm = word(&bytes[4..]);
        InstructionRow { op, a, b, w, imm }
    }

    fn of(instruction: &Instruction) -> InstructionRow {
        let Instruction { op, a, b, w, imm } = *instruction;
        let [op, a, b, w] = [op, a, b, w].map(u32::from);
        InstructionRow { op, a, b, w, imm }
    }

    fn narrowed(&self) -> Instruction {
        let InstructionRow { op, a, b, w, imm } = *self;
        let [op, a, b, w] = [op, a, b, w].map(byte);
        Instruction { op, a, b, w, imm }
    }
}

impl TargetRow {
    fn decode(bytes: &[u8]) -> TargetRow {
        let range = |register: usize| {
            let at = 4 + 8 * register;
            (word(&bytes[at..]), word(&bytes[at + 4..]))
        };
        TargetRow {
            index: u16::from_le_bytes([bytes[0], bytes[1]]).into(),
            kind: bytes[2].into(),
            claim: [0, 1, 2, 3, 4, 5, 6, 7].map(range),
        }
    }

    fn of(target: &Target) -> TargetRow {
        TargetRow {
            index: target.index.into(),
            kind: target.kind.into(),
            claim: target.claim,
        }
    }

    fn narrowed(&self) -> Target {
        Target {
            index: u16::try_from(self.index).unwrap_or(u16::MAX),
            kind: byte(self.kind),
            zero: 0,
            claim: self.claim,
        }
    }
}

fn byte(number: u32) -> u8 {
    u8::try_from(number).unwrap_or(u8::MAX)
}

/// The first four bytes as a number.
fn word(bytes: &[u8]) -> u32 {
    u32::from_le_bytes([bytes[0], bytes[1], bytes[2], bytes[3]])
}
