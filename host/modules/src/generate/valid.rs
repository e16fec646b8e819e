//! Modules that are accepted by construction: a block of code for each target, whose ranges are followed from the
//! target's claim on, and before each edge to another target what it takes to keep that one's claim.

use super::body;
use super::claims::Claims;
use super::shape;
use crate::assembler::{check, halt, jump, jumpr, set};
use crate::encode::{Instruction, Layout, Module, Target};
use crate::random::Random;

pub fn module(random: &mut Random) -> Module {
    let layout = shape::layout(random);
    let (instructions, targets) = shape::counts(random);
    let indexes = shape::target_indexes(random, instructions, targets);
    with_targets(random, layout, instructions, &indexes)
}

/// A module whose targets stand at these indexes: 0 and others, rising.
pub fn with_targets(
    random: &mut Random,
    layout: Layout,
    instructions: usize,
    indexes: &[usize],
) -> Module {
    let mut claims = Claims::new(random, layout, indexes);
    let mut code = Vec::with_capacity(instructions);
    for number in 0..indexes.len() {
        let end = indexes.get(number + 1).copied().unwrap_or(instructions);
        let length = end - indexes[number];
        code.extend(fill(random, layout, &mut claims, number, length));
    }
    Module {
        layout,
        code,
        targets: claims.targets,
    }
}

/// How a block ends.
#[derive(Clone, Copy)]
enum End {
    Halt,
    /// A jump to the target with this number.
    Jump(usize),
    /// A check and `jumpr`, after a `set` to the index of an indirect target.
    SetJumpr,
    /// A check and `jumpr` of what the register holds.
    Jumpr,
    /// On to the next block, whose target has this number.
    Next(usize),
}

impl End {
    /// The instructions that it takes itself.
    fn length(self) -> usize {
        match self {
            End::Next(_) => 0,
            End::Halt | End::Jump(_) => 1,
            End::Jumpr => 2,
            End::SetJumpr => 3,
        }
    }

    /// The target at the end of its edge.
    fn reached(self) -> Option<usize> {
        match self {
            End::Jump(number) | End::Next(number) => Some(number),
            _ => None,
        }
    }
}

/// A block's code, `length` instructions.
fn fill(
    random: &mut Random,
    layout: Layout,
    claims: &mut Claims,
    number: usize,
    length: usize,
) -> Vec<Instruction> {
    claims.settle(random, number);
    let mut block = body::Block::new(layout, claims, number);
    let end = choose_end(random, &mut block, number, length);
    block.left_to_end = end
        .reached()
        .filter(|&reached| !block.claims.is_settled(reached));
    let reserved = end.length() + to_keep(&block, end);
    while block.code.len() + reserved < length {
        let next = body::instruction(random, &mut block);
        block.put(next);
    }
    if let Some(reached) = end.reached() {
        body::keep_claim(random, &mut block, reached);
    }
    put_end(random, &mut block, end);
    block.code
}

fn choose_end(random: &mut Random, block: &mut body::Block, number: usize, length: usize) -> End {
    for _ in 0..4 {
        let end = match random.below(8) {
            0 | 1 => End::Jump(random.below(block.claims.targets.len())),
            2 | 3 => End::SetJumpr,
            4 if random.chance(30) => End::Jumpr,
            5 if random.chance(40) => End::Halt,
            _ if number + 1 < block.claims.targets.len() => End::Next(number + 1),
            _ => continue,
        };
        if let Some(reached) = end.reached() {
            block.claims.perhaps_settle(random, reached);
        }
        if end.length() + to_keep(block, end) <= length {
            return end;
        }
    }
    End::Jump(0)
}

/// The instructions that it may take to keep the claim at the end.
fn to_keep(block: &body::Block, end: End) -> usize {
    end.reached()
        .map_or(0, |reached| block.claims.claimed(reached))
}

fn put_end(random: &mut Random, block: &mut body::Block, end: End) {
    let register = random.register();
    match end {
        End::Halt => block.put(halt()),
        End::Jump(number) => {
            let index = block.claims.targets[number].index;
            block.put(jump(index.into()));
        }
        End::SetJumpr => {
            let index = indirect_index(random, &block.claims.targets);
            block.put(set(register, index));
            block.put(check(register));
            block.put(jumpr(register));
        }
        End::Jumpr => {
            block.put(check(register));
            block.put(jumpr(register));
        }
        End::Next(_) => {}
    }
}

/// The index of an indirect target. There is one: the first target is indirect.
fn indirect_index(random: &mut Random, targets: &[Target]) -> u32 {
    for _ in 0..8 {
        let target = &targets[random.below(targets.len())];
        if target.is_indirect() {
            return target.index.into();
        }
    }
    0
}
