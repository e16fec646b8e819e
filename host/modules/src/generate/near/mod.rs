//! Near misses: an accepted module with one rule broken by a hair, or still kept by a hair.

mod code;
mod form;

use crate::encode::{Instruction, Module};
use crate::random::Random;

type Break = fn(&mut Random, &mut Module);

/// Breaks one rule, now and then two.
pub fn break_rules(random: &mut Random, module: &mut Module) {
    let times = if random.chance(85) { 1 } else { 2 };
    for _ in 0..times {
        let breaks = match random.below(20) {
            0 | 1 => form::LAYOUT,
            2 | 3 => form::INSTRUCTION,
            4..=6 => form::TARGET,
            _ => code::ALL,
        };
        random.pick(breaks)(random, module);
    }
}

/// A number one beside another, or a little farther.
fn aside(random: &mut Random, number: u32) -> u32 {
    let distance = random.pick(&[-4, -3, -2, -1, -1, -1, 1, 1, 1, 2, 3, 4]);
    number.wrapping_add_signed(distance)
}

fn any_instruction<'a>(random: &mut Random, module: &'a mut Module) -> &'a mut Instruction {
    let at = random.below(module.code.len());
    &mut module.code[at]
}

/// An index whose instruction has one of the opcodes, if there is one.
fn index_with(random: &mut Random, module: &Module, opcodes: &[u8]) -> Option<usize> {
    let indexes = 0..module.code.len();
    let found: Vec<usize> = indexes
        .filter(|&index| opcodes.contains(&module.code[index].op))
        .collect();
    (!found.is_empty()).then(|| random.pick(&found))
}

fn one_with<'a>(
    random: &mut Random,
    module: &'a mut Module,
    opcodes: &[u8],
) -> Option<&'a mut Instruction> {
    let index = index_with(random, module, opcodes)?;
    Some(&mut module.code[index])
}
