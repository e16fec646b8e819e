//! Document 02's ticket 2: loads of width 129 and 130, which "read one and two bytes and carry the sign up through 32
//! bits".

use crate::both::{line, read, step, verify};
use modules::assembler::*;
use modules::encode::{claim, Instruction, Layout, Module, Range, Target, ANYTHING};
use sides::ending::{OUT_OF_BUDGET, TRAPPED, VIOLATED};
use sides::Machine;

const BASE: u32 = Layout::KNOWN.base;

/// A step of a load into r0, which holds 77 before it, with r1 as its address: the ending and what r0 then holds. The
/// memory holds the bytes from `BASE` on, and the opposite of the first in all other places.
fn loaded(load: Instruction, address: u32, bytes: &[u8]) -> (u32, u32) {
    let file = Module::known(&[load, halt()], &[Target::indirect(0)]).to_bytes();
    let mut memory = vec![!bytes[0]; 4096];
    memory[..bytes.len()].copy_from_slice(bytes);
    let before = memory.clone();
    let mut machine = Machine::default();
    machine.registers[..2].copy_from_slice(&[77, address]);
    let ran = step(&file, &mut machine, &mut memory, 0);
    let (ending, steps) = ran.expect("the step is made");
    assert!(steps == 1 && memory == before, "{load:?} at {address:x}");
    let [r0, others @ ..] = machine.registers;
    assert_eq!(others, [address, 0, 0, 0, 0, 0, 0]);
    assert_eq!(machine.pc, u16::from(ending == OUT_OF_BUDGET));
    (ending, r0)
}

#[test]
fn the_sign_is_carried_up() {
    for (width, bytes, value) in [
        (129, &[0x00][..], 0),
        (129, &[0x01], 1),
        (129, &[0x7f], 0x7f),
        (129, &[0x80], 0xffff_ff80),
        (129, &[0xff], 0xffff_ffff),
        (130, &[0x00, 0x00], 0),
        (130, &[0x80, 0x00], 0x80),
        (130, &[0xff, 0x00], 0xff),
        (130, &[0xff, 0x7f], 0x7fff),
        (130, &[0x00, 0x80], 0xffff_8000),
        (130, &[0x34, 0x92], 0xffff_9234),
        (130, &[0xff, 0xff], 0xffff_ffff),
        (1, &[0x80], 0x80),
        (2, &[0x00, 0x80], 0x8000),
    ] {
        for imm in [0, 1, -1] {
            let address = BASE.wrapping_sub_signed(imm);
            let answer = loaded(load(0, 1, width, imm), address, bytes);
            assert_eq!(answer, (OUT_OF_BUDGET, value), "width {width}, {bytes:x?}");
        }
    }
}

/// The address register itself takes the sample.
#[test]
fn a_load_into_the_pointer() {
    let file = Module::known(&[load(1, 1, 129, 0), halt()], &[Target::indirect(0)]).to_bytes();
    let mut machine = Machine::default();
    machine.registers[1] = BASE;
    let ran = step(&file, &mut machine, &mut [0x80; 4096], 0);
    assert_eq!(ran, Ok((OUT_OF_BUDGET, 1)));
    assert_eq!(machine.registers[..3], [0, 0xffff_ff80, 0]);
}

/// One byte and two at the ends of the region and of the guard zones.
#[test]
fn accesses_by_bytes() {
    for (width, address, ending) in [
        (129, 0x2000_0fff, OUT_OF_BUDGET),
        (129, 0x2000_1000, TRAPPED),
        (129, 0x2000_10ff, TRAPPED),
        (129, 0x2000_1100, VIOLATED),
        (129, 0x1fff_ffff, TRAPPED),
        (129, 0x1fff_ff00, TRAPPED),
        (129, 0x1fff_feff, VIOLATED),
        (129, 0xffff_ffff, VIOLATED),
        (130, 0x2000_0ffe, OUT_OF_BUDGET),
        (130, 0x2000_0fff, TRAPPED),
        (130, 0x2000_10fe, TRAPPED),
        (130, 0x2000_10ff, VIOLATED),
        (130, 0x1fff_ff00, TRAPPED),
        (130, 0x1fff_feff, VIOLATED),
        (130, 0xffff_ffff, VIOLATED),
    ] {
        let value = if ending == OUT_OF_BUDGET {
            u32::MAX
        } else {
            77
        };
        let answer = loaded(load(0, 1, width, 0), address, &[0]);
        assert_eq!(answer, (ending, value), "width {width} at {address:x}");
    }
}

/// "6 no longer rejects these two widths on a load", and it does elsewhere: `form.rs` tries every opcode and w.
#[test]
fn bad_widths() {
    for (instruction, good) in [
        (load(0, 1, 129, 0), true),
        (load(0, 1, 130, 0), true),
        (load(0, 1, 128, 0), false),
        (load(0, 1, 131, 0), false),
        (load(0, 1, 132, 0), false),
        (store(0, 1, 129, 0), false),
        (store(0, 1, 130, 0), false),
        (store(0, 1, 132, 0), false),
        (branch(0, 1, 129, 0), false),
        (branch(0, 1, 130, 0), false),
        (shr(0, 129), false),
        (sar(0, 130), false),
    ] {
        let code = [guard(1), instruction, halt()];
        let file = Module::known(&code, &[Target::indirect(0)]).to_bytes();
        let refused = (!good).then_some((6, 1));
        assert_eq!(read(&file).err(), refused, "{instruction:?}");
        assert_eq!(verify(&file).err(), refused, "{instruction:?}");
    }
}

/// "Their range afterwards is anything": the line for a load of each width before a claim for r0.
#[test]
fn anything_is_left() {
    const KEPT: &str = "accepted 3 2";
    const BROKEN: &str = "refused 11 1";
    for (width, claimed, due) in [
        (1, (0, 255), KEPT),
        (129, (0, 255), BROKEN),
        (129, (0, 127), BROKEN),
        (129, (0, u32::MAX - 1), BROKEN),
        (129, (1, u32::MAX), BROKEN),
        (129, (0xffff_ff80, u32::MAX), BROKEN),
        (129, ANYTHING, KEPT),
        (2, (0, 65_535), KEPT),
        (130, (0, 65_535), BROKEN),
        (130, (0, u32::MAX - 1), BROKEN),
        (130, (1, u32::MAX), BROKEN),
        (130, ANYTHING, KEPT),
    ] {
        let claimed: Range = claimed;
        let after = Target::direct(2, claim(&[(0, claimed)]));
        let code = [guard(1), load(0, 1, width, 0), halt()];
        let module = Module::known(&code, &[Target::indirect(0), after]);
        let answer = line(verify(&module.to_bytes()));
        assert_eq!(answer, due, "width {width}, {claimed:x?}");
    }
}

/// Rule 10 with the bytes that are read, at the guard zones' ends.
#[test]
fn wild_accesses_by_bytes() {
    for (width, imm, kept) in [
        (129, 256, true),
        (129, 257, false),
        (129, -256, true),
        (129, -257, false),
        (130, 255, true),
        (130, 256, false),
        (130, -256, true),
        (130, -257, false),
    ] {
        let code = [guard(1), load(0, 1, width, imm), halt()];
        let file = Module::known(&code, &[Target::indirect(0)]).to_bytes();
        let refused = (!kept).then_some((10, 1));
        assert_eq!(verify(&file).err(), refused, "width {width}, imm {imm}");
    }
}
