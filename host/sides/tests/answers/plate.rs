//! Document 02's ticket 8: limits of a device, and 17 at place 0 after 1 to 7, before all other refusals and any sweep.

use crate::both::{read, run_by, step_by, verify, verify_by, work_out_by, write};
use modules::assembler::*;
use modules::encode::{claim, Instruction, Module, Range, Target};
use modules::samples::{document_loop, largest, sized, slowest};
use modules::tables::Tables;
use sides::ending::{HALTED, OUT_OF_BUDGET};
use sides::{Limits, Machine, Ran, Side, Verdict};
use std::time::Instant;

const OVER: (u32, u32) = (17, 0);

/// A claim that rule 7 refuses where it counts.
const CROSSED: [Range; 8] = [(u32::MAX, 0); 8];

fn limits(instructions: u32, targets: u32) -> Limits {
    Limits {
        instructions,
        targets,
    }
}

fn machine_at(pc: u16) -> Machine {
    let registers = [0, 1, 2, 3, 4, 5, 6, 7];
    Machine { registers, pc }
}

/// A module with crossed claims at its direct targets, so that no verifier accepts it as it comes.
fn crossed(mut module: Module) -> Module {
    for target in module.targets.iter_mut().filter(|one| !one.is_indirect()) {
        target.claim = CROSSED;
    }
    module
}

/// What each call answers of a module that is accepted and whose claims are anything. A run from pc 0 halts.
fn answers(limits: Limits, module: &Module) -> [Result<(), (u32, u32)>; 4] {
    let file = module.to_bytes();
    let counts = [module.code.len() as u32, module.targets.len() as u32];
    let judged = |verdict: Verdict| verdict.map(|found| assert_eq!(found, counts));

    let verified = judged(verify_by(limits, &file));
    let mut without_claims = crossed(module.clone()).to_bytes();
    let worked_out = judged(work_out_by(limits, &mut without_claims));
    if worked_out.is_ok() {
        assert!(without_claims == file);
    }

    let mut machine = machine_at(0);
    let mut memory = vec![7; 4100];
    let ran = run_by(limits, &file, &mut machine, &mut memory, 4, u64::MAX);
    let ran = ran.map(|ran| {
        assert_eq!(ran, (HALTED, u64::from(counts[0])));
        assert_eq!(machine.registers[0], counts[0] - 1);
    });
    let mut machine = machine_at(0);
    let stepped = step_by(limits, &file, &mut machine, &mut memory, 4);
    let stepped = stepped.map(|ran| assert_eq!(ran, (OUT_OF_BUDGET, 1)));
    [verified, worked_out, ran, stepped]
}

#[test]
fn at_the_limits() {
    for (instructions, targets, on_plate) in [
        (511, 31, Ok(())),
        (512, 31, Ok(())),
        (511, 32, Ok(())),
        (512, 32, Ok(())),
        (512, 1, Ok(())),
        (32, 32, Ok(())),
        (513, 32, Err(OVER)),
        (513, 1, Err(OVER)),
        (512, 33, Err(OVER)),
        (33, 33, Err(OVER)),
        (513, 33, Err(OVER)),
        (4096, 32, Err(OVER)),
        (512, 256, Err(OVER)),
        (4096, 256, Err(OVER)),
        // What 9 bits of a count, or 5, would take for one that is within.
        (1024, 1, Err(OVER)),
        (1025, 1, Err(OVER)),
        (64, 64, Err(OVER)),
        (65, 65, Err(OVER)),
    ] {
        let module = sized(instructions, targets);
        let name = format!("{instructions} {targets}");
        assert_eq!(answers(Limits::BOX, &module), [Ok(()); 4], "{name}");
        assert_eq!(answers(Limits::PLATE, &module), [on_plate; 4], "{name}");
    }
    assert_eq!(sized(512, 32).to_bytes().len(), 6_293);
}

/// Any numbers are limits.
#[test]
fn other_limits() {
    let module = sized(6, 3);
    for (instructions, targets, due) in [
        (6, 3, Ok(())),
        (7, 4, Ok(())),
        (5, 3, Err(OVER)),
        (6, 2, Err(OVER)),
        (5, 2, Err(OVER)),
        (0, 3, Err(OVER)),
        (6, 0, Err(OVER)),
        (0, 0, Err(OVER)),
        (0, u32::MAX, Err(OVER)),
        (u32::MAX, 0, Err(OVER)),
        (u32::MAX, 3, Ok(())),
        (6, u32::MAX, Ok(())),
        (u32::MAX, u32::MAX, Ok(())),
        (1 << 31, 1 << 31, Ok(())),
        // Not cut to 16 bits, nor to 8.
        (1 << 16, 1 << 16, Ok(())),
        (1 << 16 | 5, 3, Ok(())),
        (6, 1 << 8 | 2, Ok(())),
    ] {
        let limits = limits(instructions, targets);
        assert_eq!(answers(limits, &module), [due; 4], "{limits:?}");
    }
    let smallest = sized(2, 1);
    assert_eq!(answers(limits(1, 1), &smallest), [Err(OVER); 4]);
    assert_eq!(answers(limits(2, 1), &smallest), [Ok(()); 4]);
    let most = sized(4096, 256);
    for (limits, due) in [
        (limits(u32::MAX, u32::MAX), Ok(())),
        (limits(4096, 256), Ok(())),
        (limits(4095, 256), Err(OVER)),
        (limits(4096, 255), Err(OVER)),
    ] {
        assert_eq!(answers(limits, &most), [due; 4], "{limits:?}");
    }
}

/// The plate with its limits the other way round takes other modules.
#[test]
fn which_limit_is_which() {
    let swapped = limits(32, 512);
    for (instructions, targets, due) in [(32, 32, Ok(())), (33, 1, Err(OVER)), (512, 32, Err(OVER))]
    {
        assert_eq!(answers(swapped, &sized(instructions, targets)), [due; 4]);
    }
}

/// The largest modules, whose claims would take thousands of sweeps.
#[test]
fn the_largest() {
    for module in [largest(), slowest()] {
        let file = module.to_bytes();
        assert_eq!(verify_by(Limits::PLATE, &file), Err(OVER));
        let mut file = crossed(module).to_bytes();
        assert_eq!(work_out_by(Limits::PLATE, &mut file), Err(OVER));
    }
}

/// A hundred calls take less time than one with its sweeps.
#[test]
fn before_any_sweep() {
    let file = slowest().to_bytes();
    for side in Side::BOTH {
        let time = |limits, calls| {
            let begin = Instant::now();
            for _ in 0..calls {
                let mut worked_out = file.clone();
                let answer = side.work_out(limits, &mut worked_out);
                assert_eq!(answer.is_ok(), limits == Limits::BOX);
            }
            begin.elapsed()
        };
        let [on_plate, on_box] = [time(Limits::PLATE, 100), time(Limits::BOX, 1)];
        assert!(
            on_plate < on_box,
            "{}: {on_plate:?} {on_box:?}",
            side.name()
        );
    }
}

/// 600 instructions and 40 targets, changed.
fn over(change: impl FnOnce(&mut Module)) -> Module {
    let mut module = sized(600, 40);
    change(&mut module);
    module
}

/// Every call answers this of a file, with limits that it keeps and with ones that it doesn't, and so does `read`.
fn refused_everywhere(file: &[u8], refused: (u32, u32)) {
    assert_eq!(read(file), Err(refused));
    for limits in [Limits::BOX, Limits::PLATE, limits(0, 0)] {
        assert_eq!(verify_by(limits, file), Err(refused));
        assert_eq!(work_out_by(limits, &mut file.to_vec()), Err(refused));
        // Neither a bad place nor too little room comes before it.
        for (pc, length) in [(0, 4096), (600, 4096), (0, 4095)] {
            let (mut machine, mut memory) = (machine_at(pc), vec![7; length]);
            let ran = run_by(limits, file, &mut machine, &mut memory, 0, 9);
            assert_eq!(ran, Err(refused));
            let ran = step_by(limits, file, &mut machine, &mut memory, 0);
            assert_eq!(ran, Err(refused));
        }
    }
}

#[test]
fn bad_files_come_first() {
    let whole = over(|_| ()).to_bytes();
    let third = 18 + 600 * 8;
    let end = whole.len();
    let with = |at: usize, byte: u8| {
        let mut file = whole.clone();
        file[at] = byte;
        file
    };
    refused_everywhere(&whole[..end - 1], (1, third as u32));
    refused_everywhere(&whole[..third], (1, third as u32));
    refused_everywhere(&with(third, 2), (2, third as u32));
    refused_everywhere(&with(15, 3), (2, 15));
    // 4,097 instructions, 257 targets, and a length that is no multiple.
    let bad = |change: fn(&mut Module)| over(change).to_bytes();
    let instructions = bad(|m| m.code.resize(4097, halt()));
    refused_everywhere(&instructions, (3, 15));
    let targets = bad(|m| m.targets.resize(257, Target::indirect(599)));
    refused_everywhere(&targets, (3, third as u32));
    refused_everywhere(&with(16, 0xc1), (3, 15));
    refused_everywhere(&[&whole[..], &[0]].concat(), (4, end as u32));

    refused_everywhere(&bad(|m| m.layout.size = 4095), (5, 0));
    refused_everywhere(&bad(|m| m.layout.guard = 4097), (5, 0));
    refused_everywhere(&bad(|m| m.code[599].op = 16), (6, 599));
    refused_everywhere(&bad(|m| m.code[512].w = 1), (6, 512));
    refused_everywhere(&bad(|m| m.code[0].b = 1), (6, 0));
    refused_everywhere(&bad(|m| m.targets[39].index = 600), (7, 39));
    refused_everywhere(&bad(|m| m.targets[32].index = 31), (7, 32));
    refused_everywhere(&bad(|m| m.targets[0].kind = 0), (7, 0));
    refused_everywhere(&bad(|m| m.targets[39].zero = 1), (7, 39));
    let narrow = bad(|m| m.targets[38].claim[7] = (1, u32::MAX));
    refused_everywhere(&narrow, (7, 38));
}

/// A crossed claim of a direct target is no 7 where claims are worked out: there 17 is the first.
#[test]
fn crossed_claims_over_the_limits() {
    let mut file = crossed(over(|_| ())).to_bytes();
    for limits in [Limits::BOX, Limits::PLATE] {
        assert_eq!(verify_by(limits, &file), Err((7, 1)));
        let (mut machine, mut memory) = (machine_at(0), [7; 4096]);
        let ran = run_by(limits, &file, &mut machine, &mut memory, 0, 9);
        assert_eq!(ran, Err((7, 1)));
    }
    assert_eq!(work_out_by(Limits::PLATE, &mut file), Err(OVER));
    assert_eq!(work_out_by(Limits::BOX, &mut file), Ok([600, 40]));

    // All else of rule 7 comes before it.
    let mut bad = crossed(over(|m| m.targets[38].kind = 2)).to_bytes();
    for limits in [Limits::BOX, Limits::PLATE] {
        assert_eq!(verify_by(limits, &bad), Err((7, 1)));
        assert_eq!(work_out_by(limits, &mut bad), Err((7, 38)));
    }
}

/// What the verifier refuses is over the plate first.
#[test]
fn code_comes_after() {
    let with = |index: usize, instruction: Instruction| {
        over(|module| module.code[index] = instruction).to_bytes()
    };
    let broken = over(|m| m.targets[39].claim = claim(&[(2, (0, 9))])).to_bytes();
    for (file, refused) in [
        (with(598, jump(40)), (8, 598)),
        (with(0, branch(1, 2, 0, 599)), (8, 0)),
        (with(599, jumpr(1)), (9, 599)),
        (with(0, load(0, 1, 4, 0)), (10, 0)),
        (broken, (11, 38)),
        (over(|m| m.code.push(halt())).to_bytes(), (12, 600)),
        (with(599, addi(1, 4)), (13, 599)),
    ] {
        assert_eq!(verify_by(Limits::BOX, &file), Err(refused));
        assert_eq!(verify_by(Limits::PLATE, &file), Err(OVER));
        let mut worked_out = file.clone();
        assert_eq!(work_out_by(Limits::PLATE, &mut worked_out), Err(OVER));
        // A claim that is broken is worked out anew.
        let on_box = work_out_by(Limits::BOX, &mut worked_out);
        assert_eq!(on_box.err(), (refused.0 != 11).then_some(refused));
    }
}

/// A run's own refusals come after too, whatever the budget; pc and offset alone don't tell which it is.
#[test]
fn calls_come_after() {
    let file = over(|_| ()).to_bytes();
    let call = |limits, pc, offset, budget| -> Ran {
        let (mut machine, mut memory) = (machine_at(pc), [7; 4100]);
        if budget == 1 {
            let stepped = step_by(limits, &file, &mut machine, &mut memory, offset);
            let (mut machine, mut memory) = (machine_at(pc), [7; 4100]);
            let ran = run_by(limits, &file, &mut machine, &mut memory, offset, 1);
            assert_eq!(stepped, ran);
            return ran;
        }
        run_by(limits, &file, &mut machine, &mut memory, offset, budget)
    };
    for budget in [0, 1, 9, u64::MAX] {
        for (pc, offset, number) in [
            (600, 0, 14),
            (u16::MAX, usize::MAX, 14),
            (0, 5, 15),
            (599, usize::MAX, 15),
        ] {
            assert_eq!(call(Limits::BOX, pc, offset, budget), Err((number, 0)));
            assert_eq!(call(Limits::PLATE, pc, offset, budget), Err(OVER));
        }
        // Over the limits wherever the machine is.
        for pc in [0, 511, 512, 599] {
            assert!(call(Limits::BOX, pc, 4, budget).is_ok());
            assert_eq!(call(Limits::PLATE, pc, 4, budget), Err(OVER));
        }
    }
    // A run of a module within the limits is refused by 14 and 15 as on the box.
    let file = sized(512, 32).to_bytes();
    for (pc, offset, number) in [(512, 0, 14), (511, 5, 15)] {
        let (mut machine, mut memory) = (machine_at(pc), [7; 4100]);
        let ran = run_by(Limits::PLATE, &file, &mut machine, &mut memory, offset, 9);
        assert_eq!(ran, Err((number, 0)));
    }
}

/// What is read and written is so for no device.
#[test]
fn read_and_write_know_no_device() {
    for module in [sized(513, 33), sized(4096, 256), largest()] {
        let file = module.to_bytes();
        let counts = [module.code.len() as u32, module.targets.len() as u32];
        assert_eq!(read(&file).map(|[_, _, _, n, k]| [n, k]), Ok(counts));
        let mut buffer = vec![0x5a; file.len()];
        let written = write(&Tables::of(&module), &mut buffer);
        assert_eq!(written, Ok(file.len() as u32));
        assert!(buffer == file);
    }
}

/// A module within both limits is the same on both: `verify` looks at that.
#[test]
fn within_both() {
    assert_eq!(verify(&document_loop().to_bytes()), Ok([4, 2]));
    let mut wild = sized(512, 32);
    wild.code[510] = load(0, 1, 4, 0);
    assert_eq!(verify(&wild.to_bytes()), Err((10, 510)));
}
