//! The targets of a module under construction. A claim is settled when the target's block begins, or by the first
//! edge to it: then it is as tight as the ranges on that edge, so that a hair less breaks it.

use crate::encode::{Layout, Range, Target, ANYTHING};
use crate::random::Random;
use crate::ranges::{covers_all, Ranges};

pub struct Claims {
    pub targets: Vec<Target>,
    settled: Vec<bool>,
    layout: Layout,
    /// How many registers a claim that no edge settles speaks of.
    most_claimed: usize,
}

impl Claims {
    pub fn new(random: &mut Random, layout: Layout, indexes: &[usize]) -> Claims {
        let targets: Vec<Target> = indexes
            .iter()
            .map(|&index| {
                if index == 0 || random.chance(40) {
                    Target::indirect(index as u16)
                } else {
                    Target::direct(index as u16, [ANYTHING; 8])
                }
            })
            .collect();
        Claims {
            settled: targets.iter().map(Target::is_indirect).collect(),
            targets,
            layout,
            most_claimed: random.pick(&[2, 2, 2, 11]),
        }
    }

    pub fn is_settled(&self, number: usize) -> bool {
        self.settled[number]
    }

    /// Settles a claim that no edge has settled yet.
    pub fn settle(&mut self, random: &mut Random, number: usize) {
        if self.settled[number] {
            return;
        }
        self.settled[number] = true;
        for _ in 0..random.below(self.most_claimed + 1) {
            let register = random.below(8);
            self.targets[number].claim[register] = any_claim(random, self.layout);
        }
    }

    /// Half of the claims are left to the edge.
    pub fn perhaps_settle(&mut self, random: &mut Random, number: usize) {
        if random.chance(50) {
            self.settle(random, number);
        }
    }

    /// Whether an edge with these ranges may go to the target. If its claim is not settled yet, it is now.
    pub fn admit(&mut self, random: &mut Random, number: usize, ranges: &Ranges) -> bool {
        if !self.settled[number] {
            self.settled[number] = true;
            for (claim, &range) in self.targets[number].claim.iter_mut().zip(ranges) {
                if random.chance(70) {
                    *claim = range;
                }
            }
        }
        covers_all(&self.targets[number].claim, ranges)
    }

    /// The registers of which a target claims something: as many instructions as it may take to keep its claim.
    pub fn claimed(&self, number: usize) -> usize {
        let claim = &self.targets[number].claim;
        claim.iter().filter(|&&range| range != ANYTHING).count()
    }
}

fn any_claim(random: &mut Random, layout: Layout) -> Range {
    let (first, last) = layout.region();
    match random.below(7) {
        0 | 1 => (first, last),
        2 => (first, last.saturating_add(4)),
        3 => (first - layout.guard, last + layout.guard),
        4 => (0, random.word()),
        5 => {
            let word = random.word();
            (word, word)
        }
        _ => {
            let (one, other) = (random.word(), random.word());
            (one.min(other), one.max(other))
        }
    }
}
