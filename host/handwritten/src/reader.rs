//! The file's form: three fields, the layout, every instruction, every target.

use crate::decoder::SIGN;
use crate::ranges::{high, low, ANYTHING};
use crate::{Accepted, Layout, Limits, Refusal};

pub(crate) const MAX_INSTRUCTIONS: usize = 4096;
pub(crate) const MAX_TARGETS: usize = 256;

/// The bytes before the instructions: the first field, and the header of the second.
pub(crate) const HEAD: usize = 3 + 12 + 3;

pub(crate) type Instruction = [u8; 8];
pub(crate) type Target = [u8; 68];

/// A well-formed module, still in the file's bytes.
pub(crate) struct Parts<'a> {
    pub layout: Layout,
    pub code: &'a [Instruction],
    pub targets: &'a [Target],
}

impl Parts<'_> {
    pub fn accepted(&self) -> Accepted {
        Accepted {
            instructions: self.code.len() as u32,
            targets: self.targets.len() as u32,
        }
    }

    /// Refusal 17. Who calls this has judged the file's form.
    pub fn judge_counts(&self, limits: Limits) -> Result<(), Refusal> {
        let Accepted {
            instructions,
            targets,
        } = self.accepted();
        if instructions > limits.instructions || targets > limits.targets {
            return Err(refusal(17, 0));
        }
        Ok(())
    }
}

pub(crate) fn index(target: &Target) -> usize {
    usize::from(u16::from_le_bytes([target[0], target[1]]))
}

pub(crate) fn is_indirect(target: &Target) -> bool {
    target[2] == 1
}

/// Refusals 1 to 7. `CLAIMED` says whether the claims of direct targets are judged too.
pub(crate) fn parts<const CLAIMED: bool>(file: &[u8]) -> Result<Parts<'_>, Refusal> {
    let mut at = 0;
    let layout = field(file, &mut at, 1, 12, 1)?;
    let code = field(file, &mut at, 2, 8, MAX_INSTRUCTIONS)?;
    let targets = field(file, &mut at, 3, 68, MAX_TARGETS)?;
    if at < file.len() {
        return Err(refusal(4, at));
    }
    let layout = read_layout(layout).ok_or(refusal(5, 0))?;
    let code = code.as_chunks().0;
    let targets = targets.as_chunks().0;
    judge_code(code)?;
    judge_targets::<CLAIMED>(targets, code.len())?;
    Ok(Parts {
        layout,
        code,
        targets,
    })
}

pub(crate) fn refusal(number: u32, place: usize) -> Refusal {
    Refusal {
        number,
        place: place as u32,
    }
}

/// Takes one field: 1 to `most` units of `unit` bytes, and moves `at` behind it.
fn field<'a>(
    file: &'a [u8],
    at: &mut usize,
    tag: u8,
    unit: usize,
    most: usize,
) -> Result<&'a [u8], Refusal> {
    let short = refusal(1, *at);
    let rest = file.get(*at..).ok_or(short)?;
    let (head, rest) = rest.split_first_chunk::<3>().ok_or(short)?;
    if head[0] != tag {
        return Err(refusal(2, *at));
    }
    let length = usize::from(u16::from_le_bytes([head[1], head[2]]));
    if length == 0 || length > unit * most || length % unit != 0 {
        return Err(refusal(3, *at));
    }
    let value = rest.get(..length).ok_or(short)?;
    *at += 3 + length;
    Ok(value)
}

fn read_layout(value: &[u8]) -> Option<Layout> {
    let [base, size, guard] = value.as_chunks().0 else {
        return None;
    };
    let base = u32::from_le_bytes(*base);
    let size = u32::from_le_bytes(*size);
    let guard = u32::from_le_bytes(*guard);
    let layout = Layout { base, size, guard };
    layout_is_good(layout).then_some(layout)
}

pub(crate) fn layout_is_good(layout: Layout) -> bool {
    let Layout { base, size, guard } = layout;
    size.is_power_of_two()
        && (256..=65_536).contains(&size)
        && guard <= 4096
        && base & (size - 1) == 0
        && base >= guard
        && u64::from(base) + u64::from(size) + u64::from(guard) <= 1 << 32
}

/// The bits that must be zero, by opcode and the low three bits of w.
/// One table makes the judgement of an instruction a single masking, without branches.
static FORBIDDEN: [u64; 128] = forbidden_table();

const fn forbidden_table() -> [u64; 128] {
    const A: u64 = 7 << 8;
    const B: u64 = 7 << 16;
    const SHIFT: u64 = 31 << 24;
    const WIDTH: u64 = 7 << 24;
    const SIGNED_WIDTH: u64 = WIDTH | (SIGN as u64) << 24;
    const IMM: u64 = 0xFFFF_FFFF << 32;
    let mut table = [0; 128];
    let mut key = 0;
    while key < 128 {
        let w = key >> 4;
        let used = match key & 15 {
            0 => 0,
            1 | 4 | 6 => A | IMM,
            2 | 3 | 5 => A | B,
            7 | 14 | 15 => A,
            8 | 9 => A | SHIFT,
            // Above four bytes there is nothing to carry a sign into.
            10 if w != 4 => A | B | SIGNED_WIDTH | IMM,
            12 => IMM,
            _ => A | B | WIDTH | IMM,
        };
        let bad_width = match key & 15 {
            10 | 11 => w != 1 && w != 2 && w != 4,
            13 => w > 2,
            _ => false,
        };
        // These opcodes aren't zero, so forbidding every bit refuses them.
        table[key] = if bad_width { !0 } else { !(used | 15) };
        key += 1;
    }
    table
}

/// The bits of an instruction that must be zero and are not.
pub(crate) fn faults(bits: u64) -> u64 {
    bits & FORBIDDEN[(bits & 15 | bits >> 20 & 0x70) as usize]
}

fn judge_code(code: &[Instruction]) -> Result<(), Refusal> {
    // Sum up first: good code is the common case and this loop has no exits.
    let faults = |i: &Instruction| faults(u64::from_le_bytes(*i));
    let all = code.iter().fold(0, |all, i| all | faults(i));
    if all == 0 {
        return Ok(());
    }
    let first = code.iter().position(|i| faults(i) != 0);
    first.map_or(Ok(()), |i| Err(refusal(6, i)))
}

fn judge_targets<const CLAIMED: bool>(
    targets: &[Target],
    instructions: usize,
) -> Result<(), Refusal> {
    // The least index that rises; the first target is indirect and has index 0.
    let mut least = 0;
    for (place, target) in targets.iter().enumerate() {
        let at = index(target);
        let kind_and_zero = u16::from_le_bytes([target[2], target[3]]);
        let good = at >= least
            && at < instructions
            && kind_and_zero <= 1
            && claim_is_good::<CLAIMED>(target)
            && (place > 0 || at == 0 && is_indirect(target));
        if !good {
            return Err(refusal(7, place));
        }
        least = at + 1;
    }
    Ok(())
}

fn claim_is_good<const CLAIMED: bool>(target: &Target) -> bool {
    let mut disorder = false;
    let mut narrow = 0;
    for pair in target[4..].as_chunks::<8>().0 {
        let pair = u64::from_le_bytes(*pair);
        disorder |= low(pair) > high(pair);
        narrow |= pair ^ ANYTHING;
    }
    if is_indirect(target) {
        narrow == 0
    } else {
        !(CLAIMED && disorder)
    }
}
