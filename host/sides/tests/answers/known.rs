//! The known outcomes of document 01 that are about modules and runs, and the gate programs' files, whose lines come
//! from the documents too.

use crate::both::{line, read, run, step, verify, verify_by};
use modules::assembler::*;
use modules::encode::{claim, Instruction, Layout, Module, Target, ANYTHING};
use modules::gate::cases;
use modules::samples::document_loop;
use sides::ending::{HALTED, OUT_OF_BUDGET, TRAPPED, VIOLATED};
use sides::{Limits, Machine, Ran};

/// A module with one target, at index 0.
fn straight(code: &[Instruction]) -> Module {
    Module::known(code, &[Target::indirect(0)])
}

fn verdict(module: &Module) -> String {
    line(verify(&module.to_bytes()))
}

/// The answer and the machine of a run in a memory of zeros.
fn run_of(module: &Module, budget: u64) -> (Ran, Machine) {
    let mut machine = Machine::default();
    let mut memory = vec![0; 5000];
    let ran = run(&module.to_bytes(), &mut machine, &mut memory, 500, budget);
    (ran, machine)
}

#[test]
fn p1_p2_guard() {
    for (word, guarded) in [(0, 0x2000_0000), (0xffff_ffff, 0x2000_0fff)] {
        let module = straight(&[set(1, word), guard(1), halt()]);
        let (ran, machine) = run_of(&module, 10);
        assert_eq!((ran, machine.registers[1]), (Ok((HALTED, 3)), guarded));
    }
}

#[test]
fn p8_displacements() {
    let region = Layout::KNOWN.region();
    let direct = Target::direct(1, claim(&[(1, region)]));
    for (imm, accepted) in [(253, true), (254, false), (-256, true), (-257, false)] {
        let mut module = straight(&[guard(1), load(0, 1, 4, imm), halt()]);
        for targets in 1..=2 {
            let answer = if accepted {
                format!("accepted 3 {targets}")
            } else {
                "refused 10 1".into()
            };
            assert_eq!(verdict(&module), answer, "imm {imm}");
            module.targets.push(direct);
        }
    }
}

#[test]
fn p9_p10_accesses() {
    for (width, address, ending) in [
        (4, 0x2000_0ffc, OUT_OF_BUDGET),
        (4, 0x2000_0ffd, TRAPPED),
        (1, 0x1fff_ff00, TRAPPED),
        (1, 0x1fff_feff, VIOLATED),
        (1, 0x2000_10ff, TRAPPED),
        (2, 0x2000_10ff, VIOLATED),
        (4, 0xffff_ffff, VIOLATED),
    ] {
        accesses(width, address, ending);
    }
}

/// One step that loads, and one that stores: done only where the step could be followed by another.
fn accesses(width: u8, address: u32, ending: u32) {
    let done = ending == OUT_OF_BUDGET;
    for instruction in [load(0, 1, width, 0), store(0, 1, width, 0)] {
        let file = straight(&[instruction, halt()]).to_bytes();
        let mut machine = Machine::default();
        machine.registers[..2].copy_from_slice(&[77, address]);
        let before = machine;
        let numbered: Vec<u8> = (0..4096).map(|at| at as u8).collect();
        let mut memory = numbered.clone();
        let ran = step(&file, &mut machine, &mut memory, 0);
        assert_eq!(ran, Ok((ending, 1)), "at {address:x}");
        let stored = memory != numbered;
        assert_eq!(stored, done && instruction == store(0, 1, width, 0));
        let mut after = before;
        if done {
            after.pc = 1;
            after.registers[0] = if stored { 77 } else { 0xfffe_fdfc };
        }
        assert_eq!(machine, after, "at {address:x}");
    }
}

#[test]
fn p11_budget_zero() {
    let mut machine = Machine {
        registers: [5; 8],
        pc: 2,
    };
    let before = machine;
    let file = document_loop().to_bytes();
    let ran = run(&file, &mut machine, &mut [0; 4096], 0, 0);
    assert_eq!((ran, machine), (Ok((OUT_OF_BUDGET, 0)), before));
}

#[test]
fn p12_empty() {
    assert_eq!(read(&[]), Err((1, 0)));
    assert_eq!(verify(&[]), Err((1, 0)));
    let mut machine = Machine {
        registers: [0; 8],
        pc: 9,
    };
    assert_eq!(run(&[], &mut machine, &mut [], 9, 0), Err((1, 0)));
}

#[test]
fn the_loop() {
    let module = document_loop();
    let file = module.to_bytes();
    assert_eq!(read(&file), Ok([0x2000_0000, 4096, 256, 4, 2]));
    assert_eq!(verdict(&module), "accepted 4 2");
    for budget in [
        3074,
        1 << 31,
        (1 << 32) - 1,
        1 << 32,
        (1 << 32) + 2,
        (1 << 63) + 3073,
        u64::MAX - 1,
        u64::MAX,
    ] {
        let (ran, machine) = run_of(&module, budget);
        assert_eq!((ran, machine.pc), (Ok((TRAPPED, 3074)), 1));
        assert_eq!(machine.registers[1], 0x2000_1000);
    }
}

#[test]
fn the_loop_cut_anywhere_ends_the_same() {
    let file = document_loop().to_bytes();
    for budget in [1, 2, 3, 4, 1000, 3073] {
        let mut machine = Machine::default();
        let mut memory = [7; 4096];
        let first = run(&file, &mut machine, &mut memory, 0, budget);
        assert_eq!(first, Ok((OUT_OF_BUDGET, budget)));
        let second = run(&file, &mut machine, &mut memory, 0, u64::MAX - budget);
        assert_eq!(second, Ok((TRAPPED, 3074 - budget)));
        assert_eq!(machine.registers[..2], [0x0707_0707, 0x2000_1000]);
        assert_eq!(machine.pc, 1);
    }
}

#[test]
fn the_loop_changed() {
    let mut module = document_loop();
    module.layout.guard = 7;
    assert_eq!(verdict(&module), "accepted 4 2");
    module.layout.guard = 6;
    assert_eq!(verdict(&module), "refused 10 1");
    let mut module = document_loop();
    module.targets[1].claim[1] = module.layout.region();
    assert_eq!(verdict(&module), "refused 11 3");
    module.targets[1].claim[1] = ANYTHING;
    assert_eq!(verdict(&module), "refused 10 1");
}

#[test]
fn gate_cases() {
    for case in cases() {
        let name = case.name;
        assert_eq!(line(verify(&case.file)), case.on_box, "{name}");
        let on_plate = verify_by(Limits::PLATE, &case.file);
        assert_eq!(line(on_plate), case.on_plate, "{name}");
    }
}
