//! The ranges that the generator follows, so that it knows what it may write next. Rules W and B of document 01, and of
//! document 02 rule N of ticket 1 and the loads of ticket 2.

use crate::encode::{op, test, Instruction, Layout, Range, ANYTHING, SIGN};

pub type Ranges = [Range; 8];

pub fn covers(outer: Range, inner: Range) -> bool {
    outer.0 <= inner.0 && inner.1 <= outer.1
}

pub fn covers_all(claim: &Ranges, ranges: &Ranges) -> bool {
    claim
        .iter()
        .zip(ranges)
        .all(|(&claim, &range)| covers(claim, range))
}

fn cut(range: Range, to: (i64, i64)) -> Option<Range> {
    let lowest = i64::from(range.0).max(to.0);
    let highest = i64::from(range.1).min(to.1);
    (lowest <= highest).then_some((lowest as u32, highest as u32))
}

fn rule_w(lowest: i64, highest: i64) -> Range {
    const COUNT: i64 = 1 << 32;
    let turn = lowest.div_euclid(COUNT);
    if turn == highest.div_euclid(COUNT) {
        (lowest as u32, highest as u32)
    } else {
        ANYTHING
    }
}

/// The lowest and the highest address at which so many bytes begin that are all in the region.
pub fn begins(layout: Layout, bytes: u8) -> (i64, i64) {
    let last = i64::from(layout.last()) + 1 - i64::from(bytes);
    (layout.first().into(), last)
}

/// Which rule N is followed. The earlier one is for modules whose verdict the ticket turns.
#[derive(Clone, Copy)]
pub enum RuleN {
    /// An access that isn't trapped begins where all its bytes are in the region.
    Now,
    /// As it was: a pointer is in the region, where the displacement is 0.
    Earlier,
}

impl RuleN {
    /// The pointer's range after an access that moves so many bytes.
    fn after(self, layout: Layout, pointer: Range, bytes: u8, displacement: i64) -> Range {
        let (lowest, highest) = match self {
            RuleN::Now => begins(layout, bytes),
            RuleN::Earlier if displacement == 0 => begins(layout, 1),
            RuleN::Earlier => return pointer,
        };
        let to = (lowest - displacement, highest - displacement);
        cut(pointer, to).unwrap_or(pointer)
    }
}

/// The displacements that keep rule 10 for so many bytes and a pointer's range, lowest and highest.
pub fn displacements(layout: Layout, pointer: Range, bytes: u8) -> Option<(i32, i32)> {
    let guard = i64::from(layout.guard);
    let (first, last) = begins(layout, bytes);
    let lowest = (first - guard - i64::from(pointer.0)).max(i32::MIN.into());
    let highest = (last + guard - i64::from(pointer.1)).min(i32::MAX.into());
    (lowest <= highest).then_some((lowest as i32, highest as i32))
}

/// The ranges after an instruction that goes to the next index and is no branch.
pub fn after(
    rule_n: RuleN,
    layout: Layout,
    mut ranges: Ranges,
    instruction: Instruction,
) -> Ranges {
    let Instruction { op, w, imm, .. } = instruction;
    let (a, b) = (usize::from(instruction.a), usize::from(instruction.b));
    let (lowest, highest) = (i64::from(ranges[a].0), i64::from(ranges[a].1));
    let other = (i64::from(ranges[b].0), i64::from(ranges[b].1));
    let displacement = i64::from(imm as i32);
    match op {
        op::SET => ranges[a] = (imm, imm),
        op::COPY => ranges[a] = ranges[b],
        op::ADD => ranges[a] = rule_w(lowest + other.0, highest + other.1),
        op::ADDI => ranges[a] = rule_w(lowest + displacement, highest + displacement),
        op::SUB => ranges[a] = rule_w(lowest - other.1, highest - other.0),
        op::ANDI => ranges[a] = (0, ranges[a].1.min(imm)),
        op::GUARD if !covers(layout.region(), ranges[a]) => ranges[a] = layout.region(),
        op::SHR => ranges[a] = (ranges[a].0 >> w, ranges[a].1 >> w),
        op::SAR => ranges[a] = after_sar(ranges[a], w),
        op::LOAD | op::STORE => {
            ranges[b] = rule_n.after(layout, ranges[b], instruction.bytes(), displacement);
            if op == op::LOAD {
                ranges[a] = loaded(w);
            }
        }
        _ => {}
    }
    ranges
}

fn loaded(width: u8) -> Range {
    if width & SIGN == 0 {
        (0, u32::MAX >> (32 - 8 * width))
    } else {
        ANYTHING
    }
}

fn after_sar(range: Range, w: u8) -> Range {
    let (lowest, highest) = (range.0 as i32, range.1 as i32);
    if (lowest < 0) == (highest < 0) {
        ((lowest >> w) as u32, (highest >> w) as u32)
    } else {
        ANYTHING
    }
}

/// The ranges after a branch, taken and not taken.
pub fn after_branch(ranges: Ranges, branch: Instruction) -> (Ranges, Ranges) {
    let (taken, passed) = cuts_of_branch(ranges, branch);
    (taken.unwrap_or(ranges), passed.unwrap_or(ranges))
}

/// The ranges that rule B cuts to, taken and not taken: none where the cut is empty and so not made.
pub fn cuts_of_branch(ranges: Ranges, branch: Instruction) -> (Option<Ranges>, Option<Ranges>) {
    let (a, b) = (usize::from(branch.a), usize::from(branch.b));
    let first = (i64::from(ranges[a].0), i64::from(ranges[a].1));
    let second = (i64::from(ranges[b].0), i64::from(ranges[b].1));
    if a == b {
        return (Some(ranges), Some(ranges));
    }
    let both_cut = |to_a, to_b| {
        let mut after = ranges;
        (after[a], after[b]) = (cut(ranges[a], to_a)?, cut(ranges[b], to_b)?);
        Some(after)
    };
    const TOP: i64 = u32::MAX as i64;
    match branch.w {
        test::EQUAL => (both_cut(second, first), Some(ranges)),
        test::BELOW => (
            both_cut((0, second.1 - 1), (first.0 + 1, TOP)),
            both_cut((second.0, TOP), (0, first.1)),
        ),
        _ => (Some(ranges), Some(ranges)),
    }
}
