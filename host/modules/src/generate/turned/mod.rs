//! Modules whose verdict document 02 turns: what follows an access keeps the rules by one rule N and breaks rule 10 or
//! 11 by the other (ticket 1), or keeps them by a load without its sign and breaks them by the one with it (ticket 2).
//! Each is drawn until it is one.

mod draft;
mod draw;
mod end;

use crate::assembler::{addi, branch, load, load_signed, shr};
use crate::encode::{claim, test, Module};
use crate::random::Random;
use crate::ranges::{after, covers, cuts_of_branch, RuleN};
use draft::Draft;
use draw::{beyond_the_region, displaced, last_bytes, looping, near, Access};

fn until_found(random: &mut Random, draw: impl Fn(&mut Random) -> Option<Module>) -> Module {
    loop {
        if let Some(module) = draw(random) {
            return module;
        }
    }
}

/// Accepted, since rule N now cuts at every displacement and to where the whole width fits.
pub fn narrowed(random: &mut Random) -> Module {
    let draw = random.pick(&[narrowed_once, narrowed_once, narrowed_in_a_loop]);
    until_found(random, draw)
}

/// Refused, since a cut of rule N is now empty.
pub fn empty_n(random: &mut Random) -> Module {
    let draw = random.pick(&[empty_by_width, empty_after_a_cut]);
    until_found(random, draw)
}

/// Refused, since rule N's cut makes one of rule B empty.
pub fn empty_b(random: &mut Random) -> Module {
    until_found(random, empty_at_a_branch)
}

/// Refused, since a load carries the sign up and so leaves anything.
pub fn signed(random: &mut Random) -> Module {
    until_found(random, sign_carried_up)
}

fn narrowed_once(random: &mut Random) -> Option<Module> {
    let layout = draw::layout(random);
    let (access, pointer) = displaced(random, layout)?;
    let mut draft = Draft::begin(random, layout, claim(&[(access.b.into(), pointer)]));
    draft.access(random, access, &[access.b])?;
    draft.carry(random, access.b);
    let (keeps, breaks) = (draft.now, draft.earlier);
    end::refused_by(random, draft, &keeps, &breaks)
}

/// The ticket's own case: a loop whose pointer only ever goes on from where no access was trapped.
fn narrowed_in_a_loop(random: &mut Random) -> Option<Module> {
    let layout = draw::layout(random);
    let (accesses, step, pointer) = looping(random, layout)?;
    let b = accesses[0].b;
    let mut draft = Draft::begin(random, layout, claim(&[(b.into(), pointer)]));
    for access in accesses {
        draft.access(random, access, &[b])?;
    }
    draft.put(addi(b, step));
    let within = |ranges: &[_; 8]| covers(pointer, ranges[usize::from(b)]);
    (within(&draft.now) && !within(&draft.earlier)).then(|| draft.again())
}

/// An access at displacement 0 whose pointer lies in the region's last bytes, too few for its width, and above.
fn empty_by_width(random: &mut Random) -> Option<Module> {
    let layout = draw::layout(random);
    let (access, pointer) = last_bytes(random, layout)?;
    let mut draft = Draft::begin(random, layout, claim(&[(access.b.into(), pointer)]));
    draft.access(random, access, &[access.b])?;
    refused_now(random, draft, access.b)
}

/// A displaced access leaves a pointer outside the region, so that the access at displacement 0 cuts nothing.
fn empty_after_a_cut(random: &mut Random) -> Option<Module> {
    let layout = draw::layout(random);
    let ([displaced, direct], pointer) = beyond_the_region(random, layout)?;
    let mut draft = Draft::begin(random, layout, claim(&[(direct.b.into(), pointer)]));
    draft.access(random, displaced, &[direct.b])?;
    draft.access(random, direct, &[direct.b])?;
    refused_now(random, draft, direct.b)
}

/// A branch beside a pointer that rule N has cut, with a bound in the part that was cut off.
fn empty_at_a_branch(random: &mut Random) -> Option<Module> {
    let layout = draw::layout(random);
    let (access, pointer) = displaced(random, layout)?;
    let Access { b, .. } = access;
    let other = draft::register_but(random, &[b]);
    let ends = access.begins(layout);
    let bound = near(
        random,
        &[pointer.0.into(), pointer.1.into(), ends.0, ends.1],
    )?;
    let claims = claim(&[(b.into(), pointer), (other.into(), bound)]);
    let mut draft = Draft::begin(random, layout, claims);
    draft.access(random, access, &[b, other])?;
    let (one, two) = random.pick(&[(b, other), (other, b)]);
    let made = branch(one, two, random.pick(&[test::EQUAL, test::BELOW]), 0);
    let now = cuts_of_branch(draft.now, made);
    let earlier = cuts_of_branch(draft.earlier, made);
    match (now, earlier) {
        ((None, _), (Some(taken), _)) if random.chance(50) => {
            let uncut = draft.now;
            end::broken_claim_if_taken(random, draft, made, &taken, &uncut)
        }
        ((_, None), (_, Some(_))) => {
            draft.pass(made);
            refused_now(random, draft, b)
        }
        _ => None,
    }
}

/// What follows a load of 1 or 2 bytes holds for what they are without a sign.
fn sign_carried_up(random: &mut Random) -> Option<Module> {
    let layout = draw::layout(random);
    let (access, pointer) = displaced(random, layout)?;
    let mut draft = Draft::begin(random, layout, claim(&[(access.b.into(), pointer)]));
    (access.bytes < 4 && draft.allows(access)).then_some(())?;
    let Access { b, bytes, imm } = access;
    let a = random.register();
    let mut keeps = after(RuleN::Now, layout, draft.now, load(a, b, bytes, imm));
    draft.put(load_signed(a, b, bytes, imm));
    if random.chance(50) {
        // So that two bytes too are an index into a small region.
        let made = shr(a, 1 + random.below(15) as u8);
        keeps = after(RuleN::Now, layout, keeps, made);
        draft.put(made);
    }
    let breaks = draft.now;
    end::refused_by(random, draft, &keeps, &breaks)
}

fn refused_now(random: &mut Random, mut draft: Draft, pointer: u8) -> Option<Module> {
    draft.carry(random, pointer);
    let (keeps, breaks) = (draft.earlier, draft.now);
    end::refused_by(random, draft, &keeps, &breaks)
}
