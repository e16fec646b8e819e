//! Working out the claims of direct targets: sweeps upward through the code until one changes nothing.

use crate::decoder::Decoder;
use crate::lookup::Lookup;
use crate::ranges::{at_branch, cover, go_on, Gone, Ranges, Region, ANYTHING};
use crate::reader::{index, is_indirect, Parts, Target, MAX_TARGETS};
use crate::set::Set;
use crate::Sweeps;
use core::mem::swap;

/// In so many sweeps a register of a target may grow; in the next in which it grows it becomes anything.
const GROWTHS: u8 = 8;

/// A set of targets, by number.
type Ranks = Set<{ MAX_TARGETS / 64 }>;

/// The claims, as far as they are worked out.
pub(crate) struct Claims {
    /// By target; what an unreached one has here means nothing.
    ranges: [Ranges; MAX_TARGETS],
    unreached: Ranks,
    /// The targets whose claim isn't the one with which the code behind them was last gone through. The others are left
    /// out of a sweep: their edges would bring what they brought, and that is covered.
    changed: Ranks,
    /// In how many sweeps each register has grown.
    growths: [[u8; 8]; MAX_TARGETS],
    /// The registers that have grown in this sweep, a bit for each.
    grown: [u8; MAX_TARGETS],
    /// Nothing has changed in this sweep.
    still: bool,
    pub sweeps: Sweeps,
}

impl Claims {
    pub const NONE: Claims = Claims {
        ranges: [[ANYTHING; 8]; MAX_TARGETS],
        unreached: Ranks::EMPTY,
        changed: Ranks::EMPTY,
        growths: [[0; 8]; MAX_TARGETS],
        grown: [0; MAX_TARGETS],
        still: true,
        sweeps: Sweeps {
            made: 0,
            given: 0,
            unbounded: 0,
        },
    };

    /// Works them out. In place, because moving the tables would cost a copy.
    #[inline(never)]
    pub fn work_out(&mut self, parts: &Parts) {
        let mut lookup = Lookup::EMPTY;
        lookup.mark(parts);
        for (rank, target) in parts.targets.iter().enumerate() {
            if is_indirect(target) {
                self.changed.insert(rank);
            } else {
                self.unreached.insert(rank);
            }
        }
        loop {
            self.sweep(parts, &lookup);
            if !self.still {
                continue;
            }
            let Some(rank) = self.unreached.next(0) else {
                return;
            };
            self.sweeps.given += 1;
            self.reach(rank, &[ANYTHING; 8]);
        }
    }

    fn sweep(&mut self, parts: &Parts, lookup: &Lookup) {
        self.sweeps.made += 1;
        self.still = true;
        self.grown = [0; MAX_TARGETS];
        let mut from = 0;
        while let Some(rank) = self.changed.next(from) {
            self.changed.remove(rank);
            self.go_through(parts, lookup, rank);
            from = rank + 1;
        }
    }

    /// Goes through the code from a target to the next one, or to where it has no way in.
    fn go_through(&mut self, parts: &Parts, lookup: &Lookup, rank: usize) {
        let region = Region::of(parts.layout);
        let begin = index(&parts.targets[rank]);
        let end = lookup.next(begin + 1, parts.code.len());
        let mut ranges = self.ranges[rank];
        for instruction in &parts.code[begin..end] {
            let ins = Decoder(instruction);
            // Accesses are judged when the claims are finished.
            let Gone::Off = go_on::<false>(&mut ranges, ins, region, |_| true) else {
                continue;
            };
            let aim = || lookup.find(ins.imm());
            match ins.op() {
                13 => at_branch(&mut ranges, ins, |taken| self.arrive(aim(), taken)),
                12 => return self.arrive(aim(), &ranges),
                _ => return,
            }
        }
        self.arrive(lookup.find(end as u32), &ranges);
    }

    /// Widens the claim at the end of an edge; an indirect target's covers everything. An edge to no target is passed
    /// over.
    fn arrive(&mut self, rank: Option<usize>, ranges: &Ranges) {
        let Some(rank) = rank else {
            return;
        };
        if self.unreached.has(rank) {
            self.reach(rank, ranges);
            return;
        }
        let mut wider = self.ranges[rank];
        for (known, &more) in wider.iter_mut().zip(ranges) {
            *known = cover(*known, more);
        }
        if wider != self.ranges[rank] {
            self.grow(rank, &wider);
        }
    }

    /// The first reaching of a target, which is no growth.
    fn reach(&mut self, rank: usize, ranges: &Ranges) {
        self.unreached.remove(rank);
        self.ranges[rank] = *ranges;
        self.changed.insert(rank);
        self.still = false;
    }

    fn grow(&mut self, rank: usize, wider: &Ranges) {
        self.changed.insert(rank);
        self.still = false;
        for (register, &wider) in wider.iter().enumerate() {
            let known = &mut self.ranges[rank][register];
            if *known == wider {
                continue;
            }
            *known = wider;
            // Twice in one sweep counts once.
            if self.grown[rank] >> register & 1 != 0 {
                continue;
            }
            self.grown[rank] |= 1 << register;
            let growths = &mut self.growths[rank][register];
            if *growths == GROWTHS {
                *known = ANYTHING;
                self.sweeps.unbounded += 1;
            } else {
                *growths += 1;
            }
        }
    }

    /// Exchanges these claims and those in a file's targets; those of indirect ones are the same.
    pub fn exchange(&mut self, targets: &mut [Target]) {
        for (ranges, target) in self.ranges.iter_mut().zip(targets) {
            for (range, pair) in ranges.iter_mut().zip(target[4..].as_chunks_mut().0) {
                let mut bytes = range.to_le_bytes();
                swap(&mut bytes, pair);
                *range = u64::from_le_bytes(bytes);
            }
        }
    }
}
