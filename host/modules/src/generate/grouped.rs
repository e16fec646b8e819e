//! Accepted modules whose targets stand beside the edges of groups of 64 instructions, fill groups and leave some out,
//! as document 02's ticket 7 counts them.

use super::{shape, valid};
use crate::encode::Module;
use crate::random::Random;
use std::collections::BTreeSet;

pub fn module(random: &mut Random) -> Module {
    let layout = shape::layout(random);
    let instructions = count(random);
    let indexes = target_indexes(random, instructions);
    valid::with_targets(random, layout, instructions, &indexes)
}

/// Instructions of some groups, mostly of few, and often of whole ones.
fn count(random: &mut Random) -> usize {
    let groups = match random.below(40) {
        0 => 64,
        1 | 2 => 1 + random.below(64),
        _ => 1 + random.below(8),
    };
    let missing = if random.chance(50) {
        0
    } else {
        random.below(64)
    };
    64 * groups - missing
}

/// 0 and others, in some groups none, in some at both edges, in some all.
fn target_indexes(random: &mut Random, instructions: usize) -> Vec<usize> {
    let mut indexes = BTreeSet::from([0]);
    for first in (0..instructions).step_by(64) {
        let group = first..instructions.min(first + 64);
        match random.below(8) {
            0..=2 => {}
            3..=5 => indexes.extend([first, group.end - 1]),
            6 => indexes.extend((0..4).map(|_| first + random.below(group.len()))),
            _ => indexes.extend(group),
        }
    }
    if random.chance(50) {
        indexes.insert(instructions - 1);
    }
    let mut indexes: Vec<usize> = indexes.into_iter().collect();
    while indexes.len() > 256 {
        indexes.remove(1 + random.below(indexes.len() - 1));
    }
    indexes
}
