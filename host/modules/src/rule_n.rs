//! Modules whose verdict document 02's ticket 1 turns, in the layout of document 01's known outcomes.

use crate::assembler::*;
use crate::encode::{claim, test, Layout, Module, Target};

/// A module with the gate programs' lines, by rule N as it was and as it is.
pub struct Turned {
    pub name: &'static str,
    pub module: Module,
    pub earlier: &'static str,
    pub now: &'static str,
}

const FIRST: u32 = Layout::KNOWN.first();
const LAST: u32 = Layout::KNOWN.last();

pub fn turned() -> [Turned; 4] {
    [
        Turned {
            name: "stereo",
            module: stereo(),
            earlier: "refused 11 4",
            now: "accepted 5 2",
        },
        Turned {
            name: "only-displaced",
            module: only_displaced(),
            earlier: "refused 11 3",
            now: "accepted 4 2",
        },
        Turned {
            name: "empty-cut-n",
            module: empty_cut_n(),
            earlier: "accepted 3 3",
            now: "refused 11 1",
        },
        Turned {
            name: "empty-cut-b",
            module: empty_cut_b(),
            earlier: "accepted 5 3",
            now: "refused 11 3",
        },
    ]
}

/// The ticket's module: a left sample at imm 0 and a right one at imm 2, in a loop.
fn stereo() -> Module {
    let samples = claim(&[(1, (FIRST, LAST + 1))]);
    let code = [
        guard(1),
        load(0, 1, 2, 0),
        load(2, 1, 2, 2),
        addi(1, 4),
        jump(1),
    ];
    Module::known(&code, &[Target::indirect(0), Target::direct(1, samples)])
}

fn only_displaced() -> Module {
    let samples = claim(&[(1, (FIRST, LAST + 4))]);
    let code = [guard(1), load(0, 1, 2, 2), addi(1, 4), jump(1)];
    Module::known(&code, &[Target::indirect(0), Target::direct(1, samples)])
}

/// No four bytes begin in the region's last two, so that r1 is not cut.
fn empty_cut_n() -> Module {
    let targets = [
        Target::indirect(0),
        Target::direct(1, claim(&[(1, (LAST - 1, LAST + 100))])),
        Target::direct(2, claim(&[(1, (LAST - 1, LAST))])),
    ];
    Module::known(&[set(1, LAST - 1), load(0, 1, 4, 0), halt()], &targets)
}

/// The load leaves r1 below all of r2, so that the branch not taken cuts nothing.
fn empty_cut_b() -> Module {
    let bound = claim(&[(1, (LAST - 5, LAST + 50)), (2, (LAST, LAST + 1))]);
    let targets = [
        Target::indirect(0),
        Target::direct(2, bound),
        Target::direct(4, claim(&[(1, (LAST, LAST + 50))])),
    ];
    let code = [
        set(1, LAST),
        set(2, LAST),
        load(0, 1, 1, 1),
        branch(1, 2, test::BELOW, 0),
        halt(),
    ];
    Module::known(&code, &targets)
}
