//! Rule N of document 02's ticket 1: what it turns, and the ends that it cuts to.

use crate::both::{line, step, verify};
use modules::assembler::*;
use modules::encode::{claim, Instruction, Layout, Module, Range, Target, ANYTHING};
use modules::rule_n::turned;
use modules::samples::document_loop;
use sides::ending::OUT_OF_BUDGET;
use sides::{verify_by_earlier_rule_n, Machine, Verdict};

#[test]
fn turned_verdicts() {
    for one in turned() {
        let file = one.module.to_bytes();
        let earlier = line(verify_by_earlier_rule_n(&file));
        assert_eq!(earlier, one.earlier, "{} by the rule as it was", one.name);
        assert_eq!(line(verify(&file)), one.now, "{}", one.name);
    }
}

/// Document 01's loop and its changes.
#[test]
fn the_loop_is_not_turned() {
    let mut modules = [(); 4].map(|()| document_loop());
    modules[1].layout.guard = 7;
    modules[2].layout.guard = 6;
    modules[3].targets[1].claim[1] = Layout::KNOWN.region();
    let lines = [
        "accepted 4 2",
        "accepted 4 2",
        "refused 10 1",
        "refused 11 3",
    ];
    for (module, due) in modules.iter().zip(lines) {
        let file = module.to_bytes();
        assert_eq!(line(verify(&file)), due);
        assert_eq!(line(verify_by_earlier_rule_n(&file)), due);
    }
}

const KEPT: Verdict = Ok([3, 3]);
const BROKEN: Verdict = Err((11, 1));

/// The verdict on an access through r1 with one claim for r1 before it and another after it.
fn around(layout: Layout, access: Instruction, before: Range, after: Range) -> Verdict {
    let module = Module {
        layout,
        code: vec![set(1, before.0), access, halt()],
        targets: vec![
            Target::indirect(0),
            Target::direct(1, claim(&[(1, before)])),
            Target::direct(2, claim(&[(1, after)])),
        ],
    };
    verify(&module.to_bytes())
}

/// Asserts that of a pointer's range an access leaves just this.
fn leaves(layout: Layout, access: Instruction, before: Range, left: Range) {
    let (lowest, highest) = left;
    let judge = |after| around(layout, access, before, after);
    assert_eq!(judge(left), KEPT, "{access:?} of {before:x?}");
    let narrower = [
        lowest
            .checked_add(1)
            .map(|lowest| (lowest, highest.max(lowest))),
        highest
            .checked_sub(1)
            .map(|highest| (lowest.min(highest), highest)),
    ];
    for after in narrower.into_iter().flatten() {
        assert_eq!(judge(after), BROKEN, "{access:?}, {after:x?}");
    }
}

#[test]
fn every_displacement_and_width() {
    let layout = Layout::KNOWN;
    for width in [1, 2, 4] {
        for imm in [0, 1, -1, 2, 255, -256, 5000, -5000, 0x1fff_ff00, i32::MIN] {
            let moved = |address: u32| address.wrapping_sub_signed(imm);
            let short = u32::from(width) - 1;
            let (first, last) = (layout.first(), layout.last() - short);
            let reach = (moved(first - layout.guard), moved(last + layout.guard));
            let mut accesses = vec![load(0, 1, width, imm), store(0, 1, width, imm)];
            if width < 4 {
                accesses.push(load_signed(0, 1, width, imm));
            }
            for access in accesses {
                leaves(layout, access, reach, (moved(first), moved(last)));
            }
        }
    }
}

/// An end of the cut that is no word cuts nothing; the other end does.
#[test]
fn no_end_wraps() {
    let lowest = Layout {
        base: 256,
        size: 256,
        guard: 16,
    };
    leaves(lowest, load(0, 1, 2, 300), (0, 226), (0, 210));
    leaves(lowest, load(0, 1, 2, 257), (0, 269), (0, 253));
    leaves(lowest, load(0, 1, 2, 256), (0, 270), (0, 254));
    leaves(lowest, load(0, 1, 2, 255), (0, 271), (1, 255));
    let highest = Layout {
        base: 0xffff_fe00,
        size: 256,
        guard: 256,
    };
    let top = u32::MAX;
    leaves(
        highest,
        load(0, 1, 2, -258),
        (top - 500, top),
        (top - 253, top),
    );
    leaves(
        highest,
        load(0, 1, 2, -257),
        (top - 500, top),
        (top - 254, top),
    );
    leaves(
        highest,
        load(0, 1, 2, -256),
        (top - 500, top),
        (top - 255, top - 1),
    );
}

#[test]
fn empty_cuts_are_not_made() {
    let layout = Layout::KNOWN;
    let (first, last) = layout.region();
    for (access, whole) in [
        (load(0, 1, 4, 0), (last - 2, last + 9)),
        (load_signed(0, 1, 2, 0), (last, last + 9)),
        (load_signed(0, 1, 1, 0), (last + 1, last + 9)),
        (store(0, 1, 2, 0), (last, last + 9)),
        (load(0, 1, 1, 0), (first - 9, first - 1)),
        (load(0, 1, 1, 3), (first - 9, first - 4)),
        (store(0, 1, 4, 3), (last - 5, last)),
    ] {
        leaves(layout, access, whole, whole);
    }
    let one = (last - 3, last + 9);
    leaves(layout, load(0, 1, 4, 0), one, (last - 3, last - 3));
}

/// A load leaves what it loaded, a store the cut range.
#[test]
fn access_of_the_pointer_itself() {
    let layout = Layout::KNOWN;
    let (first, last) = layout.region();
    let whole = (first, last + 9);
    leaves(layout, load(1, 1, 2, 2), whole, (0, 0xffff));
    leaves(layout, load_signed(1, 1, 2, 2), whole, ANYTHING);
    leaves(layout, store(1, 1, 2, 2), whole, (first, last - 3));
}

/// Without rule 10 the ranges would not be accurate: an access is done whose exact sum is far below the region.
#[test]
fn done_by_wrapping_and_refused_by_10() {
    let module = Module {
        layout: Layout {
            base: 0xffff_f000,
            size: 4096,
            guard: 0,
        },
        code: vec![load(0, 1, 4, -16), halt()],
        targets: vec![Target::indirect(0)],
    };
    let file = module.to_bytes();
    assert_eq!(line(verify(&file)), "refused 10 0");
    let mut memory: Vec<u8> = (0..4096).map(|at| at as u8).collect();
    let mut machine = Machine::default();
    let ran = step(&file, &mut machine, &mut memory, 0);
    assert_eq!(ran, Ok((OUT_OF_BUDGET, 1)));
    assert_eq!(
        (machine.registers[0], machine.registers[1]),
        (0xf3f2_f1f0, 0)
    );
}
