//! Refusals 14 and 15, and what a step changes that ends a run: nothing.

use crate::both::{run, step};
use modules::assembler::*;
use modules::encode::{claim, test, Instruction, Layout, Module, Target};
use modules::samples::document_loop;
use sides::ending::{DENIED, HALTED, OUT_OF_BUDGET, TRAPPED, VIOLATED};
use sides::{Machine, Ran};

const BASE: u32 = Layout::KNOWN.base;

/// A machine that has two registers set.
fn machine(r0: u32, r1: u32, pc: u16) -> Machine {
    let registers = [r0, r1, 0, 0, 0, 0, 0, 0];
    Machine { registers, pc }
}

#[test]
fn bad_pc_comes_before_no_room() {
    let file = document_loop().to_bytes();
    for (pc, offset, number) in [
        (4, 9, 14),
        (u16::MAX, 0, 14),
        (3, 5, 15),
        (3, 4100, 15),
        (3, 4101, 15),
        (3, usize::MAX, 15),
        (3, usize::MAX - 4095, 15),
    ] {
        let mut memory = [1; 4100];
        let mut record = machine(0, 3, pc);
        for budget in [0, 9] {
            let ran = run(&file, &mut record, &mut memory, offset, budget);
            assert_eq!(ran, Err((number, 0)), "pc {pc}, offset {offset}");
        }
        assert_eq!(record, machine(0, 3, pc));
        assert_eq!(memory, [1; 4100]);
    }
    let mut record = Machine::default();
    let ran = run(&file, &mut record, &mut [1; 4100], 4, 9);
    assert_eq!(ran, Ok((OUT_OF_BUDGET, 9)));
}

#[test]
fn what_only_the_verifier_refuses_runs() {
    let code = [load(0, 1, 1, 0), halt()];
    let file = Module::known(&code, &[Target::indirect(0)]).to_bytes();
    let mut record = machine(0, BASE, 0);
    let ran = run(&file, &mut record, &mut [1; 4100], 4, 9);
    assert_eq!(ran, Ok((HALTED, 2)));
    assert_eq!(record, machine(1, BASE, 1));
}

/// A step from index 0 with r0 and r1. It must leave the memory as it was.
fn step_of(code: &[Instruction], targets: &[Target], record: &mut Machine) -> Ran {
    let numbered: Vec<u8> = (0..4096).map(|at| at as u8).collect();
    let mut memory = numbered.clone();
    let file = Module::known(code, targets).to_bytes();
    let ran = step(&file, record, &mut memory, 0);
    assert!(memory == numbered, "{code:?}");
    ran
}

#[test]
fn endings_change_nothing() {
    let far = 1 << 16;
    for (instruction, r0, r1, ending) in [
        // The next index is that of no instruction: nothing is done, not even the store.
        (store(0, 1, 4, 0), 0, BASE, VIOLATED),
        (load(0, 1, 4, 0), 0, BASE, VIOLATED),
        (load_signed(0, 1, 1, 4095), 0, BASE, VIOLATED),
        (set(3, 9), 0, 0, VIOLATED),
        (branch(0, 0, test::BELOW, 0), 0, 0, VIOLATED),
        // Access and check are judged first.
        (store(0, 1, 4, -1), 0, BASE, TRAPPED),
        (load_signed(0, 1, 1, 4096), 0, BASE, TRAPPED),
        (load_signed(0, 1, 2, 4095), 0, BASE, TRAPPED),
        (store(0, 1, 4, 0), 0, 0, VIOLATED),
        (check(0), 1, 0, DENIED),
        (check(0), 0, 0, VIOLATED),
        (check(0), far, 0, DENIED),
        (jumpr(0), far, 0, VIOLATED),
        (jump(1), 0, 0, VIOLATED),
        (jump(far), 0, 0, VIOLATED),
        (branch(0, 0, test::EQUAL, far), 0, 0, VIOLATED),
        (halt(), 0, 0, HALTED),
        (jump(0), 0, 0, OUT_OF_BUDGET),
        (jumpr(0), 0, 0, OUT_OF_BUDGET),
        (branch(0, 0, test::EQUAL, 0), 0, 0, OUT_OF_BUDGET),
    ] {
        let mut record = machine(r0, r1, 0);
        let ran = step_of(&[instruction], &[Target::indirect(0)], &mut record);
        assert_eq!(ran, Ok((ending, 1)), "{instruction:?}");
        assert_eq!(record, machine(r0, r1, 0), "{instruction:?}");
    }
}

#[test]
fn direct_targets_are_for_jumps_and_branches_alone() {
    let targets = [Target::indirect(0), Target::direct(1, claim(&[]))];
    let mut record = machine(1, 0, 0);
    let ran = step_of(&[jumpr(0), halt()], &targets, &mut record);
    assert_eq!((ran, record), (Ok((VIOLATED, 1)), machine(1, 0, 0)));
    let ran = step_of(&[jump(1), halt()], &targets, &mut record);
    assert_eq!((ran, record), (Ok((OUT_OF_BUDGET, 1)), machine(1, 0, 1)));
}
