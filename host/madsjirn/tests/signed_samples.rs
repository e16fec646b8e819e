//! Document 02's ticket 2: "w 129 and w 130 read one and two bytes and carry the sign up through 32 bits".

use madsjirn::{verify, Ending, Limits, Machine, Refusal, Rule};

const LOAD: u8 = 10;
const STORE: u8 = 11;

/// 0 guard r1; 1 a load or store of r0 at r1; 2 halt. The one target is at 0.
fn file(opcode: u8, width: u8) -> Vec<u8> {
    let mut file = vec![0x01, 12, 0];
    for word in [0x2000_0000u32, 4096, 256] {
        file.extend(word.to_le_bytes()); // base, size, guard
    }
    file.extend([0x02, 3 * 8, 0]);
    file.extend([7, 1, 0, 0, 0, 0, 0, 0]);
    file.extend([opcode, 0, 1, width, 0, 0, 0, 0]);
    file.extend([0; 8]);
    file.extend([0x03, 68, 0]);
    file.extend([0, 0, 1, 0]);
    file.extend([[0, 0, 0, 0, 0xff, 0xff, 0xff, 0xff]; 8].as_flattened());
    file
}

#[test]
fn samples() {
    for (width, sample, value) in [
        (129, [0x00, 0xff], 0),
        (129, [0x7f, 0xff], 0x7f),
        (129, [0x80, 0x00], 0xffff_ff80),
        (129, [0xff, 0x00], 0xffff_ffff),
        (130, [0x00, 0x00], 0),
        (130, [0xff, 0x7f], 0x7fff),
        (130, [0x00, 0x80], 0xffff_8000),
        (130, [0xff, 0xff], 0xffff_ffff),
    ] {
        let file = file(LOAD, width);
        let module = verify(Limits::BOX, &file).expect("the module is accepted");
        let mut memory = [0x55; 4096];
        memory[..2].copy_from_slice(&sample);
        let mut machine = Machine::default();
        let run = module.run(&mut machine, &mut memory, 0, 10);
        let run = run.expect("the run is made");
        assert_eq!((run.ending, run.steps), (Ending::Halted, 3));
        let [r0, r1, ..] = machine.registers;
        assert_eq!((r0, r1), (value, 0x2000_0000), "{width}, {sample:x?}");
    }
}

#[test]
fn bad_widths() {
    for (opcode, width) in [
        (LOAD, 128),
        (LOAD, 131),
        (LOAD, 132),
        (STORE, 129),
        (STORE, 130),
    ] {
        let refused = Refusal {
            rule: Rule::BadInstruction,
            place: 1,
        };
        let file = file(opcode, width);
        assert_eq!(
            verify(Limits::BOX, &file).err(),
            Some(refused),
            "{opcode}, {width}"
        );
    }
}
