//! The claims: one pass upward through the code, with the ranges updated in place.

use crate::decoder::Decoder;
use crate::lookup::Lookup;
use crate::ranges::{at_branch, claim, go_on, high, low, Gone, Range, Ranges, Region};
use crate::reader::{Parts, Target};
use crate::Refusal;

/// Whether every range lies within the target's claim.
#[inline(always)]
fn keeps(ranges: &Ranges, target: &Target) -> bool {
    let mut broken = false;
    for (&have, pair) in ranges.iter().zip(target[4..].as_chunks().0) {
        let claimed = u64::from_le_bytes(*pair);
        broken |= (low(have) < low(claimed)) | (high(have) > high(claimed));
    }
    !broken
}

#[cold]
fn refuse<T>(number: u32, place: usize) -> Result<T, Refusal> {
    Err(Refusal {
        number,
        place: place as u32,
    })
}

/// Refusals 8 to 13, with the rule N that `EARLIER` chooses.
// Apart from its caller, as `machine::run` is.
#[inline(never)]
pub(crate) fn verify<const EARLIER: bool>(parts: &Parts) -> Result<(), Refusal> {
    let region = Region::of(parts.layout);
    let guard = i64::from(parts.layout.guard);
    let least = i64::from(region.first) - guard;
    // One above the last byte in reach, as `to` is one above the last byte of an access.
    let most = i64::from(region.last) + guard + 1;
    let code = parts.code;
    let mut lookup = Lookup::EMPTY;
    lookup.mark(parts);
    let find = |at: u32| parts.targets.get(lookup.find(at)?);

    // The first target has index 0, so the targets cut the code into blocks that begin with one.
    let mut i = 0;
    let mut found = find(0);
    while i < code.len() {
        let Some(target) = found else {
            return refuse(12, i);
        };
        let begin = i;
        let end = lookup.next(begin + 1, code.len());
        let block = code.get(..end).unwrap_or(code);
        let mut ranges = claim(target);

        let closed = loop {
            let Some(instruction) = block.get(i) else {
                break false;
            };
            let ins = Decoder(instruction);
            let reaches = |x: Range| {
                let signed = i64::from(ins.imm() as i32);
                let from = i64::from(low(x)) + signed;
                let to = i64::from(high(x)) + signed + i64::from(ins.bytes());
                from >= least && to <= most
            };
            match go_on::<EARLIER>(&mut ranges, ins, region, reaches) {
                Gone::On => {
                    i += 1;
                    continue;
                }
                Gone::Wild => return refuse(10, i),
                Gone::Off => {}
            }
            match ins.op() {
                13 => {
                    let Some(aim) = find(ins.imm()) else {
                        return refuse(8, i);
                    };
                    if !at_branch(&mut ranges, ins, |taken| keeps(taken, aim)) {
                        // Running off the end comes before a broken claim.
                        return refuse(if i + 1 == code.len() { 13 } else { 11 }, i);
                    }
                }
                // Halt, jump and jumpr have no next edge, so they must end the block.
                12 => {
                    let Some(aim) = find(ins.imm()) else {
                        return refuse(8, i);
                    };
                    if !keeps(&ranges, aim) {
                        return refuse(11, i);
                    }
                    break true;
                }
                15 => {
                    // At the block's start it's a target itself, whatever stands before it.
                    let checked =
                        i > begin && code[i - 1][0] == 14 && code[i - 1][1] == instruction[1];
                    if !checked {
                        return refuse(9, i);
                    }
                    break true;
                }
                _ => break true,
            }
            i += 1;
        };
        if closed {
            i += 1;
        }
        found = find(i as u32);
        match found {
            _ if closed => {}
            // Control falls out of the block.
            None => return refuse(13, i - 1),
            Some(next) if !keeps(&ranges, next) => return refuse(11, i - 1),
            Some(_) => {}
        }
    }
    Ok(())
}
