//! What a list of runs is made on: memory, starting machine, and each call's offset, budget and host bytes.

use modules::encode::{op, Instruction, Layout, Module};
use modules::random::Random;
use sides::Machine;

/// One call.
#[derive(Clone, Copy, Debug)]
pub struct Call {
    pub offset: usize,
    pub budget: u64,
    /// Budget 1 by the function `step`.
    pub by_step: bool,
}

/// A length of memory around the region's size, or none at all.
pub fn memory_length(random: &mut Random, size: usize) -> usize {
    match random.below(20) {
        0 => 0,
        1 => size - 1,
        2..=5 => size,
        6 => size + 1,
        7 => random.below(size),
        _ => size + random.below(2 * size),
    }
}

/// A machine at an indirect target, or anywhere, also past the last instruction.
pub fn machine(random: &mut Random, module: &Module, at_indirect: bool) -> Machine {
    let mut registers = [0; 8];
    registers.fill_with(|| register(random, module));
    let pc = if at_indirect {
        indirect_pc(random, module)
    } else {
        any_pc(random, module)
    };
    if let Some(&instruction) = module.code.get(usize::from(pc)) {
        if random.chance(70) {
            put_at_a_limit(random, module, instruction, &mut registers);
        }
    }
    Machine { registers, pc }
}

fn indirect_pc(random: &mut Random, module: &Module) -> u16 {
    let targets = module.targets.iter();
    let indirect = targets.filter(|target| target.is_indirect());
    let indexes: Vec<u16> = indirect.map(|target| target.index).collect();
    if indexes.is_empty() {
        0
    } else {
        random.pick(&indexes)
    }
}

/// Registers with which an instruction just does or just does not do something.
fn put_at_a_limit(
    random: &mut Random,
    module: &Module,
    instruction: Instruction,
    registers: &mut [u32; 8],
) {
    let Instruction { op, imm, .. } = instruction;
    let a = usize::from(instruction.a % 8);
    let b = usize::from(instruction.b % 8);
    let beside = random.within(-1..=1) as i32;
    match op {
        op::LOAD | op::STORE => {
            let Layout { base, size, guard } = module.layout;
            let end = base.wrapping_add(size);
            let zones = (base.wrapping_sub(guard), end.wrapping_add(guard));
            let limit = random.pick(&[base, end, zones.0, zones.1, 0]);
            // Where the first byte or the one after the last is at the limit.
            let back = random.pick(&[0, u32::from(instruction.bytes())]);
            let address = limit.wrapping_sub(back).wrapping_add_signed(beside);
            registers[b] = address.wrapping_sub(imm);
        }
        op::BRANCH => {
            let limits = [registers[b], registers[b], 0, 1 << 31];
            registers[a] = random.pick(&limits).wrapping_add_signed(beside);
        }
        op::CHECK | op::JUMPR => {
            let target = random.below(module.targets.len());
            let index = u32::from(module.targets[target].index);
            let instructions = module.code.len() as u32;
            let limits = [
                index,
                index,
                index,
                index + 1,
                index + 4096,
                index + 65_536,
                index + (1 << 31),
                instructions,
                instructions + random.below(4096) as u32,
            ];
            registers[a] = random.pick(&limits);
        }
        _ => {}
    }
}

/// Any word; often an address in or near the region, or an index.
fn register(random: &mut Random, module: &Module) -> u32 {
    let layout = module.layout;
    match random.below(5) {
        0 | 1 => layout
            .base
            .wrapping_add(random.below(layout.size.max(1) as usize) as u32),
        2 => layout
            .last()
            .wrapping_add(random.below(16) as u32)
            .wrapping_sub(8),
        3 => random.below(module.code.len() + 1) as u32,
        _ => random.word(),
    }
}

fn any_pc(random: &mut Random, module: &Module) -> u16 {
    let instructions = module.code.len();
    let last = instructions as u16 - 1;
    let any = random.below(instructions) as u16;
    match random.below(24) {
        0..=5 => last,
        6 | 7 => last + 1,
        8 => random.number() as u16,
        9 => u16::MAX,
        10..=13 => signed_load(random, module).unwrap_or(any),
        _ => any,
    }
}

/// The index of a load that carries the sign up, if there is one.
fn signed_load(random: &mut Random, module: &Module) -> Option<u16> {
    let loads = (0..)
        .zip(&module.code)
        .filter(|(_, one)| one.is_signed_load());
    let indexes: Vec<u16> = loads.map(|(index, _)| index).collect();
    (!indexes.is_empty()).then(|| random.pick(&indexes))
}

pub fn call(random: &mut Random, memory_length: usize, size: usize) -> Call {
    Call {
        offset: offset(random, memory_length, size),
        budget: budget(random),
        by_step: random.chance(50),
    }
}

/// Mostly an offset that leaves room; also just too large, and far too large.
fn offset(random: &mut Random, memory_length: usize, size: usize) -> usize {
    let last = memory_length.saturating_sub(size);
    match random.below(30) {
        0 => last.wrapping_add(1),
        1 => memory_length.wrapping_sub(random.below(3)),
        2 => memory_length + random.below(3),
        3 => usize::MAX - random.below(3),
        4 => usize::MAX - size + random.below(3) - 1,
        5 => (1usize << 32).wrapping_add(random.below(last + 1)),
        6..=11 => 0,
        12..=17 => last,
        _ => random.below(last + 1),
    }
}

/// Larger ones are chosen later, for runs that are known to end.
fn budget(random: &mut Random) -> u64 {
    match random.below(10) {
        0 => 0,
        1..=3 => 1,
        4 | 5 => 2 + random.below(10) as u64,
        6 | 7 => random.below(200) as u64,
        _ => 1000 + random.below(4000) as u64,
    }
}

/// A budget far beyond any run here: near the ends of 32 and of 64 bits, any at all, or with few steps in its lower 32.
pub fn large_budget(random: &mut Random) -> u64 {
    let few = random.below(8) as u64;
    match random.below(8) {
        0 => u64::from(u32::MAX) - few,
        1 => u64::MAX - few,
        2 => random.number(),
        3 => u64::from(random.word()) << 32,
        _ => (1 << 32) + few,
    }
}

/// What the host writes into the region before a call: nothing, a few bytes, or all of them.
pub fn write_region(random: &mut Random, region: &mut [u8]) {
    match random.below(4) {
        0 => region.fill_with(|| random.byte()),
        1 => {
            for _ in 0..8 {
                let at = random.below(region.len());
                region[at] = random.byte();
            }
        }
        2 => {
            // Small words: indexes that a check may find.
            let at = random.below(region.len() - 3);
            region[at..at + 4].copy_from_slice(&(random.below(64) as u32).to_le_bytes());
        }
        _ => {}
    }
}
