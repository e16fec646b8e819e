//! Accesses and their pointers' ranges, near the ends where rule N cuts. What is drawn need not be of use.

use crate::encode::{Layout, Range};
use crate::generate::access::any_bytes;
use crate::generate::shape;
use crate::random::Random;
use crate::ranges::begins;
use std::ops::RangeInclusive;

/// A load or store of so many bytes through register `b`.
#[derive(Clone, Copy)]
pub struct Access {
    pub b: u8,
    pub bytes: u8,
    pub imm: i32,
}

impl Access {
    fn new(b: u8, bytes: u8, imm: i64) -> Option<Access> {
        let imm = i32::try_from(imm).ok()?;
        Some(Access { b, bytes, imm })
    }

    /// The pointers with which all its bytes are in the region, also where they are no words.
    pub fn begins(self, layout: Layout) -> (i64, i64) {
        let imm = i64::from(self.imm);
        let (lowest, highest) = begins(layout, self.bytes);
        (lowest - imm, highest - imm)
    }

    /// The pointers that keep rule 10.
    fn reach(self, layout: Layout) -> (i64, i64) {
        let (lowest, highest) = self.begins(layout);
        let guard = i64::from(layout.guard);
        (lowest - guard, highest + guard)
    }
}

/// A layout with guard zones: without them rule 10 leaves rule N nothing to cut.
pub fn layout(random: &mut Random) -> Layout {
    loop {
        let layout = shape::layout(random);
        if layout.guard > 0 {
            return layout;
        }
    }
}

/// A number from the range, if it has any.
fn any(random: &mut Random, range: RangeInclusive<i64>) -> Option<i64> {
    (!range.is_empty()).then(|| random.within(range))
}

/// Both ends as words, in their order.
fn words(one: i64, other: i64) -> Option<Range> {
    let (lowest, highest) = (one.min(other), one.max(other));
    Some((lowest.try_into().ok()?, highest.try_into().ok()?))
}

/// A range whose ends are at or beside some of these numbers, or as near as words come.
pub fn near(random: &mut Random, numbers: &[i64]) -> Option<Range> {
    let mut end = || {
        let beside = random.pick(numbers) + random.within(-2..=2);
        beside.clamp(0, u32::MAX.into())
    };
    words(end(), end())
}

/// An access at any displacement, also one that takes the ends of its cut past the words, and a pointer for it.
pub fn displaced(random: &mut Random, layout: Layout) -> Option<(Access, Range)> {
    let bytes = any_bytes(random);
    let around = i64::from(layout.size + layout.guard);
    let (lowest, highest) = begins(layout, bytes);
    let end = random.pick(&[lowest, highest]);
    let imm = match random.below(5) {
        0 => 0,
        1 => random.within(-8..=8),
        2 => random.within(-around..=around),
        _ => end - i64::from(random.word()),
    };
    let access = Access::new(random.register(), bytes, imm)?;
    let (kept, reach) = (access.begins(layout), access.reach(layout));
    let inside = random.within(reach.0..=reach.1);
    let pointer = near(random, &[kept.0, kept.1, reach.0, reach.1, inside])?;
    Some((access, pointer))
}

/// Accesses through one pointer, a step for it, and the range that it keeps in a loop if no access is trapped.
pub fn looping(random: &mut Random, layout: Layout) -> Option<(Vec<Access>, i32, Range)> {
    let b = random.register();
    let farthest = random.pick(&[2, 8, 8, 100]);
    let mut accesses = Vec::new();
    for _ in 0..1 + random.below(3) {
        let imm = random.within(-farthest..=farthest);
        accesses.push(Access::new(b, any_bytes(random), imm)?);
    }
    let kept = accesses.iter().map(|access| access.begins(layout));
    let highest = kept.clone().map(|(_, highest)| highest).min()?;
    let lowest = kept.map(|(lowest, _)| lowest).max()?;
    let step = random.within(1..=8) as i32;
    let slack = random.within(0..=8);
    Some(if random.chance(70) {
        let pointer = words(lowest - slack, highest + i64::from(step))?;
        (accesses, step, pointer)
    } else {
        let pointer = words(lowest - i64::from(step), highest + slack)?;
        (accesses, -step, pointer)
    })
}

/// An access at displacement 0 and a pointer with which its last byte is never in the region.
pub fn last_bytes(random: &mut Random, layout: Layout) -> Option<(Access, Range)> {
    let access = Access::new(random.register(), random.pick(&[2, 4]), 0)?;
    let last = i64::from(layout.last());
    let lowest = random.within(access.begins(layout).1 + 1..=last);
    let highest = any(random, last + 1..=access.reach(layout).1)?;
    Some((access, words(lowest, highest)?))
}

/// Two accesses, the second at displacement 0, and a pointer that the second alone would bring into the region and
/// the first leaves wholly above or below where the second begins.
pub fn beyond_the_region(random: &mut Random, layout: Layout) -> Option<([Access; 2], Range)> {
    let b = random.register();
    let (first, last) = (i64::from(layout.first()), i64::from(layout.last()));
    let guard = i64::from(layout.guard);
    let direct = Access::new(b, any_bytes(random), 0)?;
    let bytes = any_bytes(random);
    let reach = direct.reach(layout);
    if random.chance(50) {
        let kept = any(random, direct.begins(layout).1 + 1..=reach.1)?;
        let displaced = Access::new(b, bytes, first - kept)?;
        let lowest = any(random, first.max(kept - guard)..=last.min(kept - 1))?;
        let highest = any(random, kept.max(last + 1)..=reach.1)?;
        Some(([displaced, direct], words(lowest, highest)?))
    } else {
        let kept = any(random, reach.0..=first - 1)?;
        let displaced = Access::new(b, bytes, begins(layout, bytes).1 - kept)?;
        let lowest = any(random, reach.0..=kept)?;
        let highest = any(random, first..=kept + guard)?;
        Some(([displaced, direct], words(lowest, highest)?))
    }
}
