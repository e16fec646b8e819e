//! The file's form: layout, instructions and targets by themselves. Rules 5 to 7.

use super::{any_instruction, aside, one_with, Break};
use crate::encode::{op, Module, Target, DIRECT};
use crate::random::Random;

pub const LAYOUT: &[Break] = &[size, base, guard_size];
pub const INSTRUCTION: &[Break] = &[opcode, operand, unused_byte, width, width];
pub const TARGET: &[Break] = &[
    index,
    kind,
    unused_target_byte,
    empty_claim,
    first_target,
    indirect_claim,
];

fn any_target<'a>(random: &mut Random, module: &'a mut Module) -> &'a mut Target {
    let number = random.below(module.targets.len());
    &mut module.targets[number]
}

// Rule 5.

fn size(random: &mut Random, module: &mut Module) {
    let size = module.layout.size;
    module.layout.size = match random.below(6) {
        0 => size / 2,
        1 => size.wrapping_mul(2),
        2 => aside(random, size),
        3 => size.wrapping_add(256),
        4 => random.pick(&[0, 1, 128, 255, 257]),
        _ => random.pick(&[65_535, 65_537, 131_072]),
    };
}

fn base(random: &mut Random, module: &mut Module) {
    let layout = &mut module.layout;
    let top = 0u32.wrapping_sub(layout.size);
    layout.base = match random.below(6) {
        0 => aside(random, layout.base),
        1 => layout.base.wrapping_add(layout.size),
        2 => layout.base.wrapping_sub(layout.size),
        3 => 0,
        4 => top,
        _ => top.wrapping_sub(layout.size),
    };
}

fn guard_size(random: &mut Random, module: &mut Module) {
    let layout = &mut module.layout;
    let above = 0u32.wrapping_sub(layout.base.wrapping_add(layout.size));
    layout.guard = match random.below(5) {
        0 => 4097,
        1 => aside(random, 4096),
        2 => aside(random, layout.base),
        3 => aside(random, above),
        _ => aside(random, layout.guard),
    };
}

// Rule 6.

fn opcode(random: &mut Random, module: &mut Module) {
    let op = random.pick(&[16, 17, 32, 128, 255]);
    any_instruction(random, module).op = op;
}

fn operand(random: &mut Random, module: &mut Module) {
    let byte = random.pick(&[0, 1, 3, 4, 5, 7, 8, 9, 31, 32, 33, 64, 129, 130, 255]);
    let part = random.below(3);
    let instruction = any_instruction(random, module);
    match part {
        0 => instruction.a = byte,
        1 => instruction.b = byte,
        _ => instruction.w = byte,
    }
}

/// The widths of a signed load, at an instruction that has none, or one beside them at a load.
fn width(random: &mut Random, module: &mut Module) {
    let (opcodes, widths): (&[u8], &[u8]) = match random.below(8) {
        0..=2 => (&[op::LOAD], &[128, 131, 132]),
        3 | 4 => (&[op::STORE], &[129, 130]),
        5 => (&[op::BRANCH], &[129, 130]),
        6 => (&[op::SHR, op::SAR], &[129, 130]),
        _ => (
            &[op::SET, op::COPY, op::GUARD, op::JUMP, op::CHECK],
            &[129, 130],
        ),
    };
    let w = random.pick(widths);
    if let Some(instruction) = one_with(random, module, opcodes) {
        instruction.w = w;
    }
}

/// For most opcodes one of these is unused.
fn unused_byte(random: &mut Random, module: &mut Module) {
    let bit = random.below(32);
    let part = random.below(4);
    let instruction = any_instruction(random, module);
    match part {
        0 => instruction.a ^= 1 << (bit % 8),
        1 => instruction.b ^= 1 << (bit % 8),
        2 => instruction.w ^= 1 << (bit % 8),
        _ => instruction.imm ^= 1 << bit,
    }
}

// Rule 7.

fn index(random: &mut Random, module: &mut Module) {
    let instructions = module.code.len() as u32;
    let number = random.below(module.targets.len());
    let before = module.targets[number.saturating_sub(1)].index;
    let target = &mut module.targets[number];
    target.index = match random.below(5) {
        0 => before,
        1 => aside(random, before.into()) as u16,
        2 => aside(random, instructions) as u16,
        3 => random.pick(&[0, 255, 256, 65_535]),
        _ => aside(random, target.index.into()) as u16,
    };
}

fn kind(random: &mut Random, module: &mut Module) {
    let kind = random.pick(&[0, 1, 2, 3, 128, 255]);
    any_target(random, module).kind = kind;
}

fn unused_target_byte(random: &mut Random, module: &mut Module) {
    let bit = random.below(8);
    any_target(random, module).zero ^= 1 << bit;
}

fn empty_claim(random: &mut Random, module: &mut Module) {
    let word = random.word().max(1);
    let range = random.pick(&[(word, word - 1), (word, word), (u32::MAX, 0), (1, 0)]);
    let register = random.below(8);
    any_target(random, module).claim[register] = range;
}

fn first_target(random: &mut Random, module: &mut Module) {
    let other = random.chance(50);
    let first = &mut module.targets[0];
    if other {
        first.kind = DIRECT;
    } else {
        first.index = 1;
    }
}

fn indirect_claim(random: &mut Random, module: &mut Module) {
    let range = random.pick(&[(1, u32::MAX), (0, u32::MAX - 1), (0, 0)]);
    let register = random.below(8);
    any_target(random, module).claim[register] = range;
}
