//! Accepted modules around the limits of the scale plate, document 02's ticket 8: 512 instructions and 32 targets, a
//! few less and a few more of one of them or of both.

use super::{shape, valid};
use crate::encode::Module;
use crate::random::Random;

pub fn module(random: &mut Random) -> Module {
    let layout = shape::layout(random);
    let (instructions, targets) = match random.below(4) {
        0 => (near_512(random), 1 + random.below(32)),
        1 => (40 + random.below(100), near_32(random)),
        _ => (near_512(random), near_32(random)),
    };
    let indexes = shape::target_indexes(random, instructions, targets);
    valid::with_targets(random, layout, instructions, &indexes)
}

fn near_512(random: &mut Random) -> usize {
    random.pick(&[510, 511, 512, 512, 512, 513, 513, 513, 514, 515])
}

fn near_32(random: &mut Random) -> usize {
    random.pick(&[30, 31, 32, 32, 32, 33, 33, 33, 34, 35])
}
