//! Instructions by name, and labels for their targets.

use crate::encode::{op, Instruction, Layout, Module, Range, Target, SIGN};

const fn instruction(op: u8, a: u8, b: u8, w: u8, imm: u32) -> Instruction {
    Instruction { op, a, b, w, imm }
}

pub fn halt() -> Instruction {
    instruction(op::HALT, 0, 0, 0, 0)
}
pub fn set(a: u8, imm: u32) -> Instruction {
    instruction(op::SET, a, 0, 0, imm)
}
pub fn copy(a: u8, b: u8) -> Instruction {
    instruction(op::COPY, a, b, 0, 0)
}
pub fn add(a: u8, b: u8) -> Instruction {
    instruction(op::ADD, a, b, 0, 0)
}
pub fn addi(a: u8, imm: i32) -> Instruction {
    instruction(op::ADDI, a, 0, 0, imm as u32)
}
pub fn sub(a: u8, b: u8) -> Instruction {
    instruction(op::SUB, a, b, 0, 0)
}
pub fn andi(a: u8, imm: u32) -> Instruction {
    instruction(op::ANDI, a, 0, 0, imm)
}
pub fn guard(a: u8) -> Instruction {
    instruction(op::GUARD, a, 0, 0, 0)
}
pub fn shr(a: u8, w: u8) -> Instruction {
    instruction(op::SHR, a, 0, w, 0)
}
pub fn sar(a: u8, w: u8) -> Instruction {
    instruction(op::SAR, a, 0, w, 0)
}
pub fn load(a: u8, b: u8, w: u8, imm: i32) -> Instruction {
    instruction(op::LOAD, a, b, w, imm as u32)
}
/// A load of 1 or 2 bytes that carries the sign up: width 129 or 130.
pub fn load_signed(a: u8, b: u8, bytes: u8, imm: i32) -> Instruction {
    load(a, b, SIGN | bytes, imm)
}
pub fn store(a: u8, b: u8, w: u8, imm: i32) -> Instruction {
    instruction(op::STORE, a, b, w, imm as u32)
}
pub fn jump(index: u32) -> Instruction {
    instruction(op::JUMP, 0, 0, 0, index)
}
pub fn branch(a: u8, b: u8, test: u8, index: u32) -> Instruction {
    instruction(op::BRANCH, a, b, test, index)
}
pub fn check(a: u8) -> Instruction {
    instruction(op::CHECK, a, 0, 0, 0)
}
pub fn jumpr(a: u8) -> Instruction {
    instruction(op::JUMPR, a, 0, 0, 0)
}

/// A module under construction. An instruction whose `imm` is to be a target's index
/// is put with [`Assembler::put_to`] under the target's name, before or after that target stands.
pub struct Assembler<Name = &'static str> {
    module: Module,
    names: Vec<(Name, u32)>,
    open: Vec<(usize, Name)>,
}

impl<Name: Copy + PartialEq> Assembler<Name> {
    pub fn new(layout: Layout) -> Self {
        let module = Module {
            layout,
            code: Vec::new(),
            targets: Vec::new(),
        };
        Assembler {
            module,
            names: Vec::new(),
            open: Vec::new(),
        }
    }

    /// The index of the next instruction.
    pub fn here(&self) -> u16 {
        u16::try_from(self.module.code.len()).expect("a module has at most 4,096 instructions")
    }

    /// An indirect target here.
    pub fn indirect(&mut self, name: Name) {
        self.names.push((name, self.here().into()));
        let target = Target::indirect(self.here());
        self.module.targets.push(target);
    }

    /// A direct target here, with its claim.
    pub fn direct(&mut self, name: Name, claim: [Range; 8]) {
        self.names.push((name, self.here().into()));
        let target = Target::direct(self.here(), claim);
        self.module.targets.push(target);
    }

    pub fn put(&mut self, instructions: &[Instruction]) {
        self.module.code.extend(instructions);
    }

    /// An instruction whose `imm` is added to the index of the named target.
    pub fn put_to(&mut self, instruction: Instruction, name: Name) {
        self.open.push((self.module.code.len(), name));
        self.module.code.push(instruction);
    }

    pub fn finish(mut self) -> Module {
        for &(at, name) in &self.open {
            let found = self.names.iter().find(|(known, _)| *known == name);
            let &(_, index) = found.expect("every name that is used stands at a target");
            let imm = &mut self.module.code[at].imm;
            *imm = imm.wrapping_add(index);
        }
        self.module
    }
}
