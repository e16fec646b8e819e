//! Accepted modules: document 01's loop, one that counts its rounds, the largest module there can be, a mixed one that
//! never ends, one whose claims take long to work out, ones with few and with many targets, which are looked up, and
//! ones with just as many instructions and targets as are asked for.

use crate::assembler::*;
use crate::encode::{claim, test, Instruction, Layout, Module, Target, ANYTHING};

/// Document 01's loop. From r1 = 0 it traps after [`LOOP_STEPS`] steps.
pub fn document_loop() -> Module {
    let layout = Layout::KNOWN;
    let mut code = Assembler::new(layout);
    code.indirect("start");
    code.put(&[guard(1)]);
    code.direct("again", claim(&[(1, (layout.first(), layout.last() + 4))]));
    code.put(&[load(0, 1, 4, 0), addi(1, 4)]);
    code.put_to(jump(0), "again");
    code.finish()
}

pub const LOOP_STEPS: u64 = 3074;

/// So many instructions, and targets at the first of them: additions to r0, and a halt at the end. From r0 = 0 it halts
/// with one less than the instructions there.
pub fn sized(instructions: usize, targets: usize) -> Module {
    let mut code = vec![addi(0, 1); instructions];
    code[instructions - 1] = halt();
    let targets = (0..targets as u16).map(|index| match index % 2 {
        0 => Target::indirect(index),
        _ => Target::direct(index, [ANYTHING; 8]),
    });
    Module {
        layout: Layout::KNOWN,
        code,
        targets: targets.collect(),
    }
}

/// A loop of two instructions that counts its rounds in r0 and never ends by itself.
pub fn counting() -> Module {
    Module::known(&[addi(0, 1), jump(0)], &[Target::indirect(0)])
}

/// 4,096 instructions of all sixteen kinds and 256 targets, in blocks of sixteen instructions with a target each.
pub fn largest() -> Module {
    let layout = Layout::KNOWN;
    let direct = claim(&[(1, layout.region()), (4, (0, 255))]);
    let mut module = Module {
        layout,
        code: Vec::new(),
        targets: Vec::new(),
    };
    for block in 0..256 {
        let index = module.code.len() as u16;
        module.targets.push(if block % 4 == 0 {
            Target::indirect(index)
        } else {
            Target::direct(index, direct)
        });
        module.code.extend(block_body(block));
        module.code.extend(block_end(block));
    }
    module
}

/// The index of a block's target, for blocks that are spread over the module.
fn block_index(block: u32) -> u32 {
    (block * 37 + 11) % 256 * 16
}

fn indirect_index(block: u32) -> u32 {
    block_index(block) / 64 * 64
}

/// Thirteen instructions. After them r1 is in the region and r4 in 0 to 255, as the direct targets claim.
fn block_body(block: u32) -> [Instruction; 13] {
    let width = [1, 2, 4][block as usize % 3];
    let amount = (block % 32) as u8;
    let shift = if block.is_multiple_of(2) { shr } else { sar };
    let displacement = (block % 200) as i32 - 100;
    [
        guard(1),
        load(2, 1, width, 0),
        addi(1, 4),
        store(2, 1, width, displacement),
        set(3, block.wrapping_mul(0x9e37_79b9)),
        copy(4, 3),
        add(4, 2),
        sub(4, 3),
        andi(4, 255),
        shift(5, amount),
        guard(1),
        branch(4, 5, (block % 3) as u8, block_index(block)),
        load(6, 1, 4, -displacement),
    ]
}

/// Three instructions: on to the next block (a direct target), a jump, a halt or an indirect jump.
fn block_end(block: u32) -> [Instruction; 3] {
    let to = indirect_index(block);
    match block % 8 {
        0 => [add(6, 5), andi(6, 0xffff), jump(block_index(block + 1))],
        4 => [sub(6, 5), andi(6, 0xff), halt()],
        3 | 7 => [set(7, to), check(7), jumpr(7)],
        _ => [addi(5, 1), sub(5, 2), store(5, 1, 1, 0)],
    }
}

/// A module that never ends: arithmetic, guards, loads and stores of 1, 2 and 4 bytes, branches of all tests, taken and
/// not taken as the data falls out, and indirect jumps to one of two targets.
///
/// r1 is the pointer. Masking it leaves room above for the displaced accesses, and it stays a multiple of 4,
/// so that nothing traps. r3 is the source of unpredictable bits: sums with what the region holds.
pub fn mixed() -> Module {
    let region = Layout::KNOWN.region();
    let pointer = claim(&[(1, region)]);
    let small = claim(&[(1, region), (4, (0, 155))]);
    let counted = claim(&[(1, region), (6, (0, 7))]);
    let mut code = Assembler::new(Layout::KNOWN);

    code.indirect("start");
    code.put(&[andi(1, POINTER_BITS), guard(1), load(2, 1, 4, 0)]);
    code.put(&[addi(2, 0x1e37_79b9), add(3, 2), store(3, 1, 4, 0)]);
    code.put(&[copy(4, 3), shr(4, 7), andi(4, 0xff), set(5, 100)]);
    code.put_to(branch(4, 5, test::BELOW, 0), "small");
    code.put(&[sub(4, 5), sar(3, 3)]);

    code.direct("small", small);
    code.put(&[store(4, 1, 1, 17), load(6, 1, 2, 2), add(3, 6)]);
    code.put(&[addi(1, 37), andi(1, POINTER_BITS), guard(1)]);
    code.put(&[store(3, 1, 2, 0)]);
    code.put_to(branch(3, 2, test::SIGNED_BELOW, 0), "signed");
    code.put(&[sub(2, 3), load(0, 1, 1, 0), add(3, 0)]);

    code.direct("signed", pointer);
    code.put(&[copy(0, 3), shr(0, 9), andi(0, 3), set(5, 0)]);
    code.put_to(branch(0, 5, test::EQUAL, 0), "sum");

    // "even" and "odd" stand 16 apart, so that one bit of r3 chooses between them.
    code.direct("choose", pointer);
    code.put(&[copy(7, 3), andi(7, 16)]);
    code.put_to(addi(7, 0), "even");
    code.put(&[check(7), jumpr(7)]);

    code.indirect("even");
    let even = code.here();
    code.put(&[guard(1), load(2, 1, 4, 0), shr(2, 1), add(3, 2)]);
    code.put(&[copy(5, 3), andi(5, POINTER_BITS), add(1, 5), guard(1)]);
    code.put(&[store(3, 1, 4, 0), load(4, 1, 2, 1), sar(4, 2), sub(3, 4)]);
    code.put(&[store(4, 1, 2, 2), addi(3, 77), set(6, 0)]);
    code.put_to(jump(0), "start");

    assert_eq!(code.here(), even + 16);
    code.indirect("odd");
    code.put(&[guard(1), addi(1, 4), load(2, 1, 4, -4)]);
    code.put(&[add(3, 2), store(3, 1, 1, -1)]);
    code.put_to(jump(0), "start");

    code.direct("sum", pointer);
    code.put(&[set(6, 0), set(5, 8)]);
    code.direct("next", counted);
    code.put(&[load(2, 1, 4, 0), add(3, 2), addi(1, 4), guard(1)]);
    code.put(&[addi(6, 1), set(5, 8)]);
    code.put_to(branch(6, 5, test::BELOW, 0), "next");
    code.put_to(jump(0), "choose");
    code.finish()
}

/// Multiples of 32 below the region's size.
const POINTER_BITS: u32 = 0xfe0;

/// As large as there can be, and in 73 * 254 + 1 sweeps the slowest known to have its claims worked out: 73 for each
/// target and one more would be the most. Every direct target claims anything here.
pub fn slowest() -> Module {
    ring(Layout::KNOWN, 255, 16)
}

/// So many direct targets, each of which jumps to the one below it, and the lowest to the highest, with so many
/// instructions behind each but the lowest. What is new at one target takes a sweep to the next, and each time round
/// only one register grows by one: r0 until it is anything, then r1, and so on.
pub fn ring(layout: Layout, targets: usize, length: usize) -> Module {
    let mut code = Assembler::new(layout);
    code.indirect(0);
    for register in 0..8 {
        code.put(&[set(register, 0)]);
    }
    code.put_to(jump(0), targets);
    code.direct(1, claim(&[]));
    code.put(&[addi(0, 1)]);
    for register in 1..8 {
        code.put_to(edge(), targets);
        // One is added only if the register before it is anything: else its highest bit is 0.
        code.put(&[shr(register - 1, 31), add(register, register - 1)]);
    }
    code.put_to(jump(0), targets);
    for target in 2..=targets {
        code.direct(target, claim(&[]));
        for _ in 1..length {
            code.put_to(edge(), target - 1);
        }
        code.put_to(jump(0), target - 1);
    }
    code.finish()
}

/// A branch that cuts nothing, so that its two edges have the same ranges. No instruction takes longer in a sweep.
fn edge() -> Instruction {
    branch(0, 1, test::SIGNED_BELOW, 0)
}

/// The numbers of targets with which [`branching`] and [`tour`] are measured. Powers of two, so that they spread evenly.
pub const TARGETS: [usize; 4] = [2, 16, 64, 256];

/// An odd number of targets from one that is named to the next, so that all come in turn, and neighbours far apart.
const STRIDE: usize = 37;

/// 4,096 instructions, a quarter of them branches, which name all targets in turn. With another number of targets the
/// code is the same but for these names.
pub fn branching(targets: usize) -> Module {
    let apart = 4096 / targets;
    let index = |target: usize| (target % targets * apart) as u16;
    let direct = (1..targets).map(|target| Target::direct(index(target), [ANYTHING; 8]));
    let targets = [Target::indirect(0)].into_iter().chain(direct).collect();
    let mut code = Vec::new();
    for turn in (0..1024).step_by(4) {
        let names = [0, 1, 2, 3].map(|more| index((turn + more) * STRIDE).into());
        code.extend(branching_stretch(names));
    }
    code[4095] = jump(0);
    Module {
        layout: Layout::KNOWN,
        code,
        targets,
    }
}

/// Sixteen instructions, with four branches to these indexes. They need nothing of the ranges before them.
fn branching_stretch(names: [u32; 4]) -> [Instruction; 16] {
    [
        guard(1),
        load(2, 1, 4, 0),
        addi(1, 4),
        branch(2, 3, test::BELOW, names[0]),
        copy(4, 2),
        add(4, 3),
        store(4, 1, 2, -4),
        branch(4, 5, test::EQUAL, names[1]),
        set(5, 100),
        sub(4, 5),
        shr(4, 3),
        branch(2, 4, test::SIGNED_BELOW, names[2]),
        andi(6, 0xff),
        sar(6, 2),
        add(3, 6),
        branch(6, 5, test::BELOW, names[3]),
    ]
}

/// 4,096 instructions that never end by themselves: a tour of all targets in turn. Every other target is left by check
/// and jumpr, the rest by a jump or a taken branch, so that three of four steps look a target up.
pub fn tour(targets: usize) -> Module {
    let mut code = Assembler::new(Layout::KNOWN);
    // Targets stand in fours, with what no step reaches behind the last of them: a branch alone has a way on to it.
    let apart = 4096 / targets.div_ceil(4);
    for target in 0..targets {
        let next = (target + STRIDE) % targets;
        if target == 0 || target % 2 == 1 {
            code.indirect(target);
        } else {
            code.direct(target, [ANYTHING; 8]);
        }
        if target % 2 == 0 {
            code.put_to(set(7, 0), next);
            code.put(&[check(7), jumpr(7)]);
        } else if target % 4 == 1 && target + 1 < targets {
            code.put_to(jump(0), next);
        } else {
            code.put_to(branch(0, 0, test::EQUAL, 0), next);
            let end = (target / 4 + 1) * apart - 1;
            while usize::from(code.here()) < end {
                code.put(&[addi(0, 1)]);
            }
            code.put_to(jump(0), next);
        }
    }
    code.finish()
}
