//! The end of a module: an access or an edge that keeps the rules with some ranges and breaks them with others.

use super::draft::Draft;
use crate::assembler::*;
use crate::encode::{test, Instruction, Module, Range, ANYTHING};
use crate::generate::access::{any_bytes, load_or_store};
use crate::random::Random;
use crate::ranges::{covers, displacements, Ranges};

/// Ends with what breaks rule 10 or 11 with the ranges `breaks` alone, if there is such an end.
pub fn refused_by(
    random: &mut Random,
    draft: Draft,
    keeps: &Ranges,
    breaks: &Ranges,
) -> Option<Module> {
    if random.chance(50) {
        wild_access(random, draft, keeps, breaks)
    } else {
        broken_claim(random, draft, keeps, breaks)
    }
}

/// A register whose range in `breaks` sticks out.
fn sticking_out(random: &mut Random, keeps: &Ranges, breaks: &Ranges) -> Option<usize> {
    let registers = (0..8).filter(|&register| !covers(keeps[register], breaks[register]));
    let registers: Vec<usize> = registers.collect();
    (!registers.is_empty()).then(|| random.pick(&registers))
}

fn wild_access(
    random: &mut Random,
    mut draft: Draft,
    keeps: &Ranges,
    breaks: &Ranges,
) -> Option<Module> {
    let register = sticking_out(random, keeps, breaks)?;
    let bytes = any_bytes(random);
    let (lowest, highest) = displacements(draft.layout, keeps[register], bytes)?;
    let wild = match displacements(draft.layout, breaks[register], bytes) {
        None => lowest..=highest,
        Some((narrow, _)) if lowest < narrow => lowest..=highest.min(narrow - 1),
        Some((_, narrow)) if narrow < highest => lowest.max(narrow + 1)..=highest,
        Some(_) => return None,
    };
    let imm = random.within((*wild.start()).into()..=(*wild.end()).into()) as i32;
    let a = random.register();
    let made = load_or_store(random, a, register as u8, bytes, imm);
    draft.code.put(&[made, halt()]);
    Some(draft.code.finish())
}

/// An edge to a target: next, by a jump, or by a branch that cuts nothing.
fn broken_claim(
    random: &mut Random,
    mut draft: Draft,
    keeps: &Ranges,
    breaks: &Ranges,
) -> Option<Module> {
    let claim = claim_between(random, keeps, breaks)?;
    let (a, b) = (random.register(), random.register());
    match random.below(4) {
        0 => draft.code.put_to(jump(0), "end"),
        1 => draft
            .code
            .put_to(branch(a, b, test::SIGNED_BELOW, 0), "end"),
        2 => draft.code.put_to(branch(a, a, test::BELOW, 0), "end"),
        _ => {}
    }
    draft.code.direct("end", claim);
    draft.code.put(&[halt()]);
    Some(draft.code.finish())
}

/// The edge of a branch that is taken, with the ranges on it.
pub fn broken_claim_if_taken(
    random: &mut Random,
    mut draft: Draft,
    branch: Instruction,
    keeps: &Ranges,
    breaks: &Ranges,
) -> Option<Module> {
    let claim = claim_between(random, keeps, breaks)?;
    draft.code.put_to(branch, "end");
    draft.code.put(&[halt()]);
    draft.code.direct("end", claim);
    draft.code.put(&[halt()]);
    Some(draft.code.finish())
}

/// A claim that the ranges `keeps` keep and `breaks` break, in one register.
fn claim_between(random: &mut Random, keeps: &Ranges, breaks: &Ranges) -> Option<Ranges> {
    let broken = sticking_out(random, keeps, breaks)?;
    let mut claim = [ANYTHING; 8];
    for register in 0..8 {
        let (one, other) = (keeps[register], breaks[register]);
        if register == broken {
            claim[register] = range_between(random, one, other);
        } else if random.chance(30) {
            claim[register] = (one.0.min(other.0), one.1.max(other.1));
        }
    }
    Some(claim)
}

/// A range that covers one and not the other, often the one itself.
fn range_between(random: &mut Random, covered: Range, other: Range) -> Range {
    let below = (other.0 < covered.0) && (covered.1 >= other.1 || random.chance(50));
    let mut any = |from: u32, to: u32| {
        let any = random.within(from.into()..=to.into()) as u32;
        random.pick(&[any, from, to])
    };
    if below {
        (any(other.0 + 1, covered.0), any(covered.1, u32::MAX))
    } else {
        (any(0, covered.0), any(covered.1, other.1 - 1))
    }
}
