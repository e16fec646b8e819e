//! The instructions inside a block, and those that bring the ranges within a claim.

use super::access::{any_bytes, load_or_store};
use super::claims::Claims;
use crate::assembler::*;
use crate::encode::{op, Instruction, Layout, ANYTHING};
use crate::random::Random;
use crate::ranges::{after, after_branch, covers, displacements, Ranges, RuleN};

/// A block under construction, with the ranges after what it has.
pub struct Block<'a> {
    pub layout: Layout,
    pub claims: &'a mut Claims,
    pub code: Vec<Instruction>,
    /// The target that the block ends at, if its claim is left to that edge.
    pub left_to_end: Option<usize>,
    ranges: Ranges,
}

impl Block<'_> {
    pub fn new(layout: Layout, claims: &mut Claims, number: usize) -> Block<'_> {
        let ranges = claims.targets[number].claim;
        Block {
            layout,
            claims,
            code: Vec::new(),
            left_to_end: None,
            ranges,
        }
    }

    pub fn put(&mut self, instruction: Instruction) {
        self.ranges = self.ranges_after(instruction);
        self.code.push(instruction);
    }

    fn ranges_after(&self, instruction: Instruction) -> Ranges {
        if instruction.op == op::BRANCH {
            after_branch(self.ranges, instruction).1
        } else {
            after(RuleN::Now, self.layout, self.ranges, instruction)
        }
    }
}

/// An instruction that keeps the rules after what the block has.
pub fn instruction(random: &mut Random, block: &mut Block) -> Instruction {
    match random.below(100) {
        0..=49 => arithmetic(random, &block.ranges),
        50..=74 => access(random, block),
        75..=96 => some_branch(random, block),
        _ => check(random.register()),
    }
}

pub fn arithmetic(random: &mut Random, ranges: &Ranges) -> Instruction {
    let (a, b) = (random.register(), random.register());
    match random.below(12) {
        0 => set(a, random.word()),
        1 | 2 => set(a, near_an_end(random, ranges)),
        3 => copy(a, b),
        4 => add(a, b),
        5 => addi(a, random.word() as i32),
        6 => addi(a, random.within(-8..=8) as i32),
        7 => sub(a, b),
        8 => andi(a, random.word()),
        9 => shr(a, random.below(32) as u8),
        10 => sar(a, random.below(32) as u8),
        _ => guard(a),
    }
}

/// A word at or beside an end of some register's range, where the cuts of rule B become empty.
fn near_an_end(random: &mut Random, ranges: &Ranges) -> u32 {
    let (lowest, highest) = ranges[random.below(8)];
    let distance = random.within(-1..=1) as i32;
    random
        .pick(&[lowest, highest])
        .wrapping_add_signed(distance)
}

/// A load or store through a register whose range allows it, or a guard where none does.
fn access(random: &mut Random, block: &Block) -> Instruction {
    let bytes = any_bytes(random);
    for _ in 0..6 {
        let (a, b) = (random.register(), random.register());
        let pointer = block.ranges[usize::from(b)];
        if let Some((lowest, highest)) = displacements(block.layout, pointer, bytes) {
            let imm = displacement(random, lowest, highest);
            return load_or_store(random, a, b, bytes, imm);
        }
    }
    guard(random.register())
}

/// 0 where it is allowed, one of the ends, or any that is allowed.
fn displacement(random: &mut Random, lowest: i32, highest: i32) -> i32 {
    match random.below(10) {
        0..=4 if lowest <= 0 && 0 <= highest => 0,
        5 => lowest,
        6 => highest,
        _ => random.within(lowest.into()..=highest.into()) as i32,
    }
}

/// A branch to a target whose claim is kept when it is taken.
fn some_branch(random: &mut Random, block: &mut Block) -> Instruction {
    let test = random.below(3) as u8;
    let mut made = branch(random.register(), random.register(), test, 0);
    let (taken, _) = after_branch(block.ranges, made);
    for _ in 0..8 {
        let number = random.below(block.claims.targets.len());
        if block.left_to_end != Some(number) && block.claims.admit(random, number, &taken) {
            made.imm = block.claims.targets[number].index.into();
            break;
        }
    }
    made
}

/// Puts an instruction for each register of which the target claims something; after them its claim is kept.
pub fn keep_claim(random: &mut Random, block: &mut Block, number: usize) {
    let claim = block.claims.targets[number].claim;
    let claimed = (0..8).filter(|&register| claim[register] != ANYTHING);
    for register in claimed {
        let made = if covers(claim[register], block.ranges[register]) {
            harmless(random, block, &claim, register)
        } else {
            None
        };
        let made = made.unwrap_or_else(|| bring_within(random, block, &claim, register));
        block.put(made);
    }
    let admitted = block.claims.admit(random, number, &block.ranges);
    assert!(admitted, "the claim is kept");
}

/// An instruction after which the claim is kept in the registers up to `register`, found by trial.
fn harmless(
    random: &mut Random,
    block: &mut Block,
    claim: &Ranges,
    register: usize,
) -> Option<Instruction> {
    (0..4).find_map(|_| {
        let made = instruction(random, block);
        let ranges = block.ranges_after(made);
        let kept = (0..=register).all(|kept| covers(claim[kept], ranges[kept]));
        kept.then_some(made)
    })
}

/// An instruction that brings a register within its claim, by preference to an end of it.
fn bring_within(
    random: &mut Random,
    block: &Block,
    claim: &Ranges,
    register: usize,
) -> Instruction {
    let (lowest, highest) = claim[register];
    let a = register as u8;
    if covers((lowest, highest), block.layout.region()) && random.chance(60) {
        return guard(a);
    }
    if lowest == 0 && random.chance(60) {
        return andi(a, highest);
    }
    match random.below(3) {
        0 => set(a, lowest),
        1 => set(a, highest),
        _ => set(a, random.within(lowest.into()..=highest.into()) as u32),
    }
}
