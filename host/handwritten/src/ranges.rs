//! Ranges of registers: the table's range column, and rules W, N and B.

use crate::decoder::Decoder;
use crate::reader::Target;
use crate::Layout;

/// A register's lowest value in the low half and its highest in the high half, as in a claim.
/// One word, so that a range is stored as a whole and a later load never waits for two stores.
pub(crate) type Range = u64;
pub(crate) type Ranges = [Range; 8];

pub(crate) const ANYTHING: Range = range(0, u32::MAX);

const fn range(low: u32, high: u32) -> Range {
    low as u64 | (high as u64) << 32
}

pub(crate) fn low(range: Range) -> u32 {
    range as u32
}

pub(crate) fn high(range: Range) -> u32 {
    (range >> 32) as u32
}

/// The smallest range that covers both.
#[inline(always)]
pub(crate) fn cover(one: Range, other: Range) -> Range {
    range(low(one).min(low(other)), high(one).max(high(other)))
}

pub(crate) fn claim(target: &Target) -> Ranges {
    let mut ranges = [ANYTHING; 8];
    for (range, pair) in ranges.iter_mut().zip(target[4..].as_chunks().0) {
        *range = u64::from_le_bytes(*pair);
    }
    ranges
}

/// Rule W. The ends lie in -2^32 to 2^33 - 1, so equal upper halves mean equal wraps.
fn wrap(low: i64, high: i64) -> Range {
    if low >> 32 == high >> 32 {
        range(low as u32, high as u32)
    } else {
        ANYTHING
    }
}

/// The part of a range from `least` to `most`, or the range itself if there is none. The ends are whole numbers, also
/// ones that are no word.
#[inline(always)]
fn cut(whole: Range, least: i64, most: i64) -> Range {
    let low = i64::from(low(whole)).max(least);
    let high = i64::from(high(whole)).min(most);
    if low <= high {
        range(low as u32, high as u32)
    } else {
        whole
    }
}

/// The common part, or the first range if there is none.
fn common(first: Range, other: Range) -> Range {
    cut(first, low(other).into(), high(other).into())
}

/// The first and the last address of the region.
#[derive(Clone, Copy)]
pub(crate) struct Region {
    pub first: u32,
    pub last: u32,
}

impl Region {
    pub fn of(layout: Layout) -> Region {
        Region {
            first: layout.base,
            last: layout.base + (layout.size - 1),
        }
    }
}

/// Rule N: an access of so many bytes at b + imm that isn't trapped begins from DB to DL - bytes + 1.
/// `EARLIER` chooses the rule as it was: DB to DL, and only where imm is 0.
#[inline(always)]
fn rule_n<const EARLIER: bool>(b: Range, imm: i64, bytes: u8, region: Region) -> Range {
    let (least, most) = (i64::from(region.first) - imm, i64::from(region.last) - imm);
    if !EARLIER {
        cut(b, least, most - i64::from(bytes) + 1)
    } else if imm == 0 {
        cut(b, least, most)
    } else {
        b
    }
}

/// The operands' ranges where the branch is taken.
fn taken(w: u8, a: Range, b: Range) -> (Range, Range) {
    match w {
        0 => (common(a, b), common(b, a)),
        // Both cuts are empty or neither is.
        1 if low(a) < high(b) => (
            range(low(a), high(a).min(high(b) - 1)),
            range(low(b).max(low(a) + 1), high(b)),
        ),
        _ => (a, b),
    }
}

/// The operands' ranges where the branch isn't taken.
fn passed(w: u8, a: Range, b: Range) -> (Range, Range) {
    if w == 1 && low(b) <= high(a) {
        (
            range(low(a).max(low(b)), high(a)),
            range(low(b), high(b).min(high(a))),
        )
    } else {
        (a, b)
    }
}

/// Goes through a branch: `edge` has the ranges where it is taken, and those where it isn't are left.
#[inline(always)]
pub(crate) fn at_branch<T>(
    ranges: &mut Ranges,
    ins: Decoder,
    edge: impl FnOnce(&Ranges) -> T,
) -> T {
    let (a, b, w) = (ins.a(), ins.b(), ins.w());
    let (x, y) = (ranges[a], ranges[b]);
    if a != b {
        (ranges[a], ranges[b]) = taken(w, x, y);
    }
    let answer = edge(ranges);
    if a != b {
        (ranges[a], ranges[b]) = passed(w, x, y);
    }
    answer
}

/// What became of an instruction that was to go on.
pub(crate) enum Gone {
    On,
    /// Its access isn't allowed.
    Wild,
    /// It doesn't only go on: a halt, jump, branch or jumpr.
    Off,
}

/// Goes through an instruction that can only go on to the next index, with the rule N that `EARLIER` chooses.
/// `allowed` judges an access by the range of its b. The one match on the opcode has it too, since two cost more.
#[inline(always)]
pub(crate) fn go_on<const EARLIER: bool>(
    ranges: &mut Ranges,
    ins: Decoder,
    region: Region,
    allowed: impl Fn(Range) -> bool,
) -> Gone {
    let (a, b, w, imm) = (ins.a(), ins.b(), ins.w(), ins.imm());
    let signed = i64::from(imm as i32);
    match ins.op() {
        1 => ranges[a] = range(imm, imm),
        2 => ranges[a] = ranges[b],
        3 => {
            let (x, y) = (ranges[a], ranges[b]);
            ranges[a] = wrap(
                i64::from(low(x)) + i64::from(low(y)),
                i64::from(high(x)) + i64::from(high(y)),
            );
        }
        4 => {
            let x = ranges[a];
            ranges[a] = wrap(i64::from(low(x)) + signed, i64::from(high(x)) + signed);
        }
        5 => {
            let (x, y) = (ranges[a], ranges[b]);
            ranges[a] = wrap(
                i64::from(low(x)) - i64::from(high(y)),
                i64::from(high(x)) - i64::from(low(y)),
            );
        }
        6 => ranges[a] = range(0, high(ranges[a]).min(imm)),
        7 => {
            let x = ranges[a];
            let inside = (low(x) >= region.first) & (high(x) <= region.last);
            ranges[a] = if inside {
                x
            } else {
                range(region.first, region.last)
            };
        }
        8 => {
            let x = ranges[a];
            ranges[a] = range(low(x) >> (w & 31), high(x) >> (w & 31));
        }
        9 => {
            let x = ranges[a];
            let shift = |end: u32| ((end as i32) >> (w & 31)) as u32;
            let one_side = (low(x) ^ high(x)) >> 31 == 0;
            ranges[a] = if one_side {
                range(shift(low(x)), shift(high(x)))
            } else {
                ANYTHING
            };
        }
        10 => {
            if !allowed(ranges[b]) {
                return Gone::Wild;
            }
            ranges[b] = rule_n::<EARLIER>(ranges[b], signed, ins.bytes(), region);
            // After the cut, so that a load into b keeps the loaded range.
            ranges[a] = if ins.is_signed() {
                ANYTHING
            } else {
                range(0, u32::MAX >> ((32 - 8 * u32::from(w)) & 31))
            };
        }
        11 => {
            if !allowed(ranges[b]) {
                return Gone::Wild;
            }
            ranges[b] = rule_n::<EARLIER>(ranges[b], signed, ins.bytes(), region);
        }
        14 => {}
        _ => return Gone::Off,
    }
    Gone::On
}
