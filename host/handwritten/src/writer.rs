//! A file from its tables: the reader's rules first, and then the bytes.

use crate::reader::{faults, layout_is_good, refusal, HEAD, MAX_INSTRUCTIONS, MAX_TARGETS};
use crate::{InstructionRow, Layout, Refusal, TargetRow};

/// The range of every word.
const ANYTHING: [u32; 2] = [0, u32::MAX];

/// A row's eight bytes as a number, if its numbers fit them.
fn pack(row: &InstructionRow) -> u64 {
    let InstructionRow { op, a, b, w, imm } = *row;
    u64::from(op | a << 8 | b << 16 | w << 24) | u64::from(imm) << 32
}

/// Not zero if a number doesn't fit its byte, or for what the reader would find.
fn row_faults(row: &InstructionRow) -> u64 {
    let above = (row.op | row.a | row.b | row.w) >> 8;
    u64::from(above) | faults(pack(row))
}

/// Refusals 3, 5, 6, 7 and 16, and the file at the beginning of the buffer; gives its length.
pub(crate) fn write(
    layout: Layout,
    code: &[InstructionRow],
    targets: &[TargetRow],
    buffer: &mut [u8],
) -> Result<u32, Refusal> {
    if !(1..=MAX_INSTRUCTIONS).contains(&code.len()) {
        return Err(refusal(3, 15));
    }
    // Behind the instructions, where the third field begins.
    let third = HEAD + 8 * code.len();
    if !(1..=MAX_TARGETS).contains(&targets.len()) {
        return Err(refusal(3, third));
    }
    if !layout_is_good(layout) {
        return Err(refusal(5, 0));
    }
    judge_code(code)?;
    judge_targets(targets, code.len())?;
    let length = third + 3 + 68 * targets.len();
    let file = buffer.get_mut(..length).ok_or(refusal(16, 0))?;
    let (head, rest) = file.split_at_mut(HEAD);
    let (instructions, last) = rest.split_at_mut(8 * code.len());
    put_head(head, layout, instructions.len());
    put_code(instructions, code);
    put_targets(last, targets);
    Ok(length as u32)
}

fn judge_code(code: &[InstructionRow]) -> Result<(), Refusal> {
    // Good code is the common case, so sum up first, as the reader does.
    let all = code.iter().fold(0, |all, row| all | row_faults(row));
    if all == 0 {
        return Ok(());
    }
    let first = code.iter().position(|row| row_faults(row) != 0);
    first.map_or(Ok(()), |at| Err(refusal(6, at)))
}

fn judge_targets(targets: &[TargetRow], instructions: usize) -> Result<(), Refusal> {
    // The least index that rises. An index that doesn't fit 16 bits is above all instructions.
    let mut least = 0;
    for (place, target) in targets.iter().enumerate() {
        let at = target.index as usize;
        let good = at >= least
            && at < instructions
            && target.kind <= 1
            && claim_is_good(target)
            && (place > 0 || at == 0 && target.kind == 1);
        if !good {
            return Err(refusal(7, place));
        }
        least = at + 1;
    }
    Ok(())
}

fn claim_is_good(target: &TargetRow) -> bool {
    if target.kind == 1 {
        return target.claim == [ANYTHING; 8];
    }
    let mut ranges = target.claim.iter();
    ranges.all(|[lowest, highest]| lowest <= highest)
}

/// The first field, and the header of the second.
fn put_head(head: &mut [u8], layout: Layout, code: usize) {
    let Layout { base, size, guard } = layout;
    head[..3].copy_from_slice(&[1, 12, 0]);
    let words = head[3..].as_chunks_mut().0.iter_mut();
    for (bytes, word) in words.zip([base, size, guard]) {
        *bytes = word.to_le_bytes();
    }
    put_header(&mut head[15..], 2, code);
}

fn put_header(bytes: &mut [u8], tag: u8, length: usize) {
    let [low, high] = (length as u16).to_le_bytes();
    bytes.copy_from_slice(&[tag, low, high]);
}

fn put_code(value: &mut [u8], code: &[InstructionRow]) {
    for (bytes, row) in value.as_chunks_mut().0.iter_mut().zip(code) {
        *bytes = pack(row).to_le_bytes();
    }
}

/// The third field with its header.
fn put_targets(field: &mut [u8], targets: &[TargetRow]) {
    let (header, value) = field.split_at_mut(3);
    put_header(header, 3, value.len());
    for (bytes, target) in value.as_chunks_mut::<68>().0.iter_mut().zip(targets) {
        // Judged, so that index and kind fit, and what stands above them is the zero byte.
        let place_and_kind = target.index | target.kind << 16;
        bytes[..4].copy_from_slice(&place_and_kind.to_le_bytes());
        let words = bytes[4..].as_chunks_mut().0.iter_mut();
        for (bytes, word) in words.zip(target.claim.as_flattened()) {
            *bytes = word.to_le_bytes();
        }
    }
}
