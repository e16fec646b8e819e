//! Targets by their index, as document 02's ticket 7 has them found.

use crate::reader::{index, Parts, MAX_INSTRUCTIONS};
use crate::set::Set;

const GROUPS: usize = MAX_INSTRUCTIONS / 64;

/// Finds a target by its index.
pub(crate) struct Lookup {
    /// The indexes of targets.
    indexes: Set<GROUPS>,
    /// How many targets there are before each group of 64 instructions. Up to 256, which fits no byte.
    before: [u16; GROUPS],
}

impl Lookup {
    pub const EMPTY: Lookup = Lookup {
        indexes: Set::EMPTY,
        before: [0; GROUPS],
    };

    /// Marks a module's targets. In place, because moving the tables would cost a copy.
    pub fn mark(&mut self, parts: &Parts) {
        for target in parts.targets {
            // It never matters to judged targets; it spares a check.
            self.indexes.insert(index(target) % MAX_INSTRUCTIONS);
        }
        let groups = parts.code.len().div_ceil(64);
        let mut count = 0;
        for (before, bits) in self.before.iter_mut().zip(&self.indexes.0).take(groups) {
            *before = count;
            count += bits.count_ones() as u16;
        }
    }

    /// The target's number, counted from 0.
    #[inline(always)]
    pub fn find(&self, at: u32) -> Option<usize> {
        let group = (at / 64) as usize;
        let bits = *self.indexes.0.get(group)?;
        let bit = 1 << (at % 64);
        if bits & bit == 0 {
            return None;
        }
        let rank = u32::from(self.before[group]) + (bits & (bit - 1)).count_ones();
        Some(rank as usize)
    }

    /// The index of the first target that doesn't stand below `from`, or the number of instructions.
    pub fn next(&self, from: usize, instructions: usize) -> usize {
        let groups = instructions.div_ceil(64);
        let next = self.indexes.next_in(groups, from);
        next.unwrap_or(instructions)
    }
}

#[cfg(test)]
mod tests {
    use super::*;
    use crate::reader::{Instruction, Target, MAX_TARGETS};
    use crate::Layout;
    use modules::random::Random;
    use std::vec::Vec;

    const LAYOUT: Layout = Layout {
        base: 0,
        size: 256,
        guard: 0,
    };

    fn target(index: usize) -> Target {
        let mut target = [0; 68];
        target[..2].copy_from_slice(&(index as u16).to_le_bytes());
        target
    }

    /// Rising indexes below `instructions`, as many as there can be or fewer; here and there a group has none.
    fn targets(random: &mut Random, instructions: usize) -> Vec<Target> {
        let most = random.pick(&[1, 2, 16, 64, 255, MAX_TARGETS]);
        let empty = random.number() & random.number();
        let mut left: Vec<usize> = (0..instructions)
            .filter(|at| empty >> (at / 64) & 1 == 0)
            .collect();
        while left.len() > most {
            left.remove(random.below(left.len()));
        }
        left.into_iter().map(target).collect()
    }

    #[test]
    fn finds_what_the_plain_list_has() {
        for case in 0..300 {
            let mut random = Random::for_case(7, case);
            let instructions = match random.below(4) {
                0 => MAX_INSTRUCTIONS,
                1 => 64 * (1 + random.below(64)),
                _ => 1 + random.below(MAX_INSTRUCTIONS),
            };
            let code: Vec<Instruction> = [[0; 8]].repeat(instructions);
            let targets = targets(&mut random, instructions);
            let mut lookup = Lookup::EMPTY;
            lookup.mark(&Parts {
                layout: LAYOUT,
                code: &code,
                targets: &targets,
            });
            let beyond = [65_536, 1 << 31, u32::MAX - 4199].into_iter();
            let beyond = beyond.flat_map(|from| from..=from + 4199);
            for at in (0..=4200).chain(beyond) {
                let mut list = targets.iter();
                let plain = list.position(|target| index(target) as u32 == at);
                assert_eq!(lookup.find(at), plain, "case {case}, index {at}");
                let from = at as usize;
                let plain = targets.iter().map(index).find(|&index| index >= from);
                let plain = plain.unwrap_or(instructions);
                assert_eq!(
                    lookup.next(from, instructions),
                    plain,
                    "case {case}, from {at}"
                );
            }
        }
    }
}
