//! The measured modules are what the table says of them.

use modules::encode::{op, Instruction, Module};
use modules::samples::{branching, document_loop, largest, mixed, slowest, tour, TARGETS};
use sides::{Limits, Machine, Side};
use std::collections::BTreeSet;

/// Every step of the first steps: from which index to which.
fn steps(side: Side, module: &Module, count: usize) -> BTreeSet<(usize, usize)> {
    let file = module.to_bytes();
    let mut machine = Machine::default();
    let mut memory = vec![0; module.layout.size as usize];
    let mut made = BTreeSet::new();
    for _ in 0..count {
        let from = usize::from(machine.pc);
        let made_one = side.step(Limits::BOX, &file, &mut machine, &mut memory, 0);
        made_one.expect("the step is made");
        made.insert((from, usize::from(machine.pc)));
    }
    made
}

#[test]
fn all_are_accepted() {
    for module in [document_loop(), largest(), mixed(), slowest()] {
        for side in Side::BOTH {
            let verified = side.verify(Limits::BOX, &module.to_bytes());
            verified.expect("the module is accepted");
        }
    }
}

#[test]
fn the_largest_and_the_slowest_are_the_largest() {
    for module in [largest(), slowest()] {
        let file = module.to_bytes();
        assert_eq!(file.len(), 50_197);
        for side in Side::BOTH {
            assert_eq!(side.verify(Limits::BOX, &file), Ok([4096, 256]));
        }
    }
}

#[test]
fn all_kinds_are_in_the_largest() {
    let kinds: BTreeSet<u8> = largest().code.iter().map(|one| one.op).collect();
    assert_eq!(kinds.len(), 16);
}

#[test]
fn the_mixed_goes_everywhere() {
    for side in Side::BOTH {
        every_way_is_gone(side, &mixed());
    }
}

fn every_way_is_gone(side: Side, module: &Module) {
    let made = steps(side, module, 100_000);
    for (index, instruction) in module.code.iter().enumerate() {
        let ways = made.iter().filter(|(from, _)| *from == index).count();
        let expected = match instruction.op {
            op::BRANCH | op::JUMPR => 2,
            _ => 1,
        };
        assert_eq!(ways, expected, "ways on from {index}, {instruction:?}");
    }
}

#[test]
fn those_by_targets_are_accepted_and_have_so_many() {
    for targets in TARGETS {
        for module in [branching(targets), tour(targets)] {
            for side in Side::BOTH {
                let verified = side.verify(Limits::BOX, &module.to_bytes());
                assert_eq!(verified, Ok([4096, targets as u32]));
            }
        }
    }
}

/// The indexes of all targets.
fn indexes(module: &Module) -> BTreeSet<u32> {
    module.targets.iter().map(|one| one.index.into()).collect()
}

#[test]
fn the_branching_names_every_target_and_is_else_the_same() {
    let without_names = |module: &Module| -> Vec<Instruction> {
        let code = module.code.iter();
        code.map(|&one| match one.op {
            op::BRANCH => Instruction { imm: 0, ..one },
            _ => one,
        })
        .collect()
    };
    let least = without_names(&branching(TARGETS[0]));
    for targets in TARGETS {
        let module = branching(targets);
        assert_eq!(without_names(&module), least);
        let branches = module.code.iter().filter(|one| one.op == op::BRANCH);
        assert_eq!(branches.clone().count(), 1023);
        let mut named: Vec<u32> = branches.map(|one| one.imm).collect();
        named.truncate(targets);
        // Each once before any comes again.
        assert_eq!(named.into_iter().collect::<BTreeSet<_>>(), indexes(&module));
    }
}

#[test]
fn the_tour_reaches_every_target_once_in_a_round() {
    for targets in TARGETS {
        let module = tour(targets);
        for side in Side::BOTH {
            let made = steps(side, &module, 2 * targets);
            assert_eq!(made.len(), 2 * targets, "no step comes twice");
            let is_lookup = |&&(from, _): &&(usize, usize)| {
                let lookups = [op::JUMP, op::BRANCH, op::CHECK, op::JUMPR];
                lookups.contains(&module.code[from].op)
            };
            assert_eq!(made.iter().filter(is_lookup).count(), targets * 3 / 2);
            let all = indexes(&module);
            let reached = made.iter().map(|&(_, to)| to as u32);
            let reached: BTreeSet<u32> = reached.filter(|to| all.contains(to)).collect();
            assert_eq!(reached, all);
            assert!(made.iter().any(|&(_, to)| to == 0), "the round is closed");
        }
    }
}
