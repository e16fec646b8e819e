//! A module's size and layout, and where its targets stand.

use crate::encode::Layout;
use crate::random::Random;

/// How many instructions and targets: mostly few, sometimes as many as there can be.
pub fn counts(random: &mut Random) -> (usize, usize) {
    let (most, most_targets) = match random.below(100) {
        0..=69 => (40, 12),
        70..=89 => (300, 60),
        90..=97 => (2000, 256),
        _ => (4096, 256),
    };
    let instructions = count_up_to(random, most);
    let targets = count_up_to(random, most_targets.min(instructions));
    (instructions, targets)
}

/// 1 to `most`, now and then `most` itself or just below.
fn count_up_to(random: &mut Random, most: usize) -> usize {
    if random.chance(10) {
        most - random.below(2.min(most))
    } else {
        1 + random.below(most)
    }
}

pub fn layout(random: &mut Random) -> Layout {
    if random.chance(20) {
        return Layout::KNOWN;
    }
    let size = 256u32 << random.below(9);
    let guard = match random.below(4) {
        0 => random.pick(&[0, 1, 2, 3, 4, 4095, 4096]),
        1 => random.below(16) as u32,
        _ => random.below(4097) as u32,
    };
    // The region's number among all multiples of size that leave room for the guard zones.
    let first = i64::from(guard.div_ceil(size));
    let last = ((1i64 << 32) - i64::from(guard)) / i64::from(size) - 1;
    let number = match random.below(4) {
        0 => first,
        1 => last,
        _ => random.within(first..=last),
    };
    Layout {
        base: number as u32 * size,
        size,
        guard,
    }
}

/// The targets' indexes: 0 and others, rising.
pub fn target_indexes(random: &mut Random, instructions: usize, targets: usize) -> Vec<usize> {
    let mut indexes = vec![0];
    let mut wanted = targets - 1;
    for index in 1..instructions {
        if random.below(instructions - index) < wanted {
            indexes.push(index);
            wanted -= 1;
        }
    }
    indexes
}
