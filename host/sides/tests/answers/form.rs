//! Refusals 1 to 7: the file's form.

use crate::both::read;
use modules::assembler::halt;
use modules::encode::{claim, op, Instruction, Layout, Module, Target, INDIRECT};
use modules::samples::document_loop;
use sides::Read;

/// Where the loop's second and third field begin.
const SECOND: u32 = 15;
const THIRD: u32 = 50;

/// The loop's file with one byte changed.
fn with(at: u32, byte: u8) -> Vec<u8> {
    let mut file = document_loop().to_bytes();
    file[at as usize] = byte;
    file
}

#[test]
fn every_cut_ends_inside_a_field() {
    let file = document_loop().to_bytes();
    for cut in 0..file.len() {
        let place = match cut as u32 {
            0..SECOND => 0,
            SECOND..THIRD => SECOND,
            _ => THIRD,
        };
        assert_eq!(read(&file[..cut]), Err((1, place)), "{cut}");
    }
}

#[test]
fn tags_and_lengths() {
    for at in [0, SECOND, THIRD] {
        assert_eq!(read(&with(at, 9)), Err((2, at)));
        assert_eq!(read(&with(at + 1, 13)), Err((3, at)));
        assert_eq!(read(&with(at + 1, 0)), Err((3, at)));
    }
    assert_eq!(read(&with(1, 24)), Err((3, 0)));
    // A bad length comes before a short value, a short header before a wrong tag.
    assert_eq!(read(&[1, 13, 0]), Err((3, 0)));
    assert_eq!(read(&[1, 12, 0]), Err((1, 0)));
    assert_eq!(read(&[9, 12]), Err((1, 0)));
}

#[test]
fn one_too_many() {
    let file = document_loop().to_bytes();
    // The lengths of 4,097 instructions and of 257 targets.
    let code = [&file[..SECOND as usize], &[2, 8, 0x80]].concat();
    assert_eq!(read(&code), Err((3, SECOND)));
    let targets = [&file[..THIRD as usize], &[3, 0x44, 0x44]].concat();
    assert_eq!(read(&targets), Err((3, THIRD)));
    let tail = [&file[..], &[0]].concat();
    assert_eq!(read(&tail), Err((4, file.len() as u32)));
}

fn read_layout(base: u32, size: u32, guard: u32) -> Read {
    let mut module = document_loop();
    module.layout = Layout { base, size, guard };
    read(&module.to_bytes())
}

#[test]
fn layouts() {
    for [base, size, guard] in [
        [0, 256, 0],
        [0x2000_0000, 65_536, 4096],
        [0xffff_f000, 4096, 0],
        [4096, 4096, 4096],
        [0xffff_0000, 256, 4096],
    ] {
        assert_eq!(
            read_layout(base, size, guard),
            Ok([base, size, guard, 4, 2])
        );
    }
    for [base, size, guard] in [
        [0x2000_0000, 0, 0],
        [0x2000_0000, 128, 0],
        [0x2000_0000, 131_072, 0],
        [0x2000_0000, 4095, 0],
        [0x2000_0000, 768, 0],
        [0x2000_0000, 4096, 4097],
        [0x2000_0800, 4096, 0],
        [0, 4096, 1],
        [0xffff_f000, 4096, 1],
    ] {
        assert_eq!(
            read_layout(base, size, guard),
            Err((5, 0)),
            "{base:x} {size} {guard}"
        );
    }
}

/// What an opcode's row of document 01's table says, and for a load document 02's ticket 2: the highest a and b, the
/// values of w, and whether imm is used.
pub fn row(opcode: u8) -> (u8, u8, Vec<u8>, bool) {
    match opcode {
        op::HALT => (0, 0, vec![0], false),
        op::SET | op::ADDI | op::ANDI => (7, 0, vec![0], true),
        op::COPY | op::ADD | op::SUB => (7, 7, vec![0], false),
        op::GUARD | op::CHECK | op::JUMPR => (7, 0, vec![0], false),
        op::SHR | op::SAR => (7, 0, (0..32).collect(), false),
        op::LOAD => (7, 7, vec![1, 2, 4, 129, 130], true),
        op::STORE => (7, 7, vec![1, 2, 4], true),
        op::JUMP => (0, 0, vec![0], true),
        op::BRANCH => (7, 7, vec![0, 1, 2], true),
        _ => (0, 0, vec![], false),
    }
}

/// Whether an instruction is good: the one after it is bad, so a good one is passed over.
fn is_good(instruction: Instruction) -> bool {
    let bad = Instruction { op: 99, ..halt() };
    let module = Module::known(&[halt(), instruction, bad], &[Target::indirect(0)]);
    match read(&module.to_bytes()) {
        Err((6, index @ 1..=2)) => index == 2,
        other => panic!("{other:?} for {instruction:?}"),
    }
}

#[test]
fn instructions() {
    for opcode in 0..=255 {
        let (most_a, most_b, widths, has_imm) = row(opcode);
        for w in 0..=255 {
            let fits = widths.contains(&w);
            let plain = Instruction {
                op: opcode,
                w,
                ..halt()
            };
            for a in [0, 1, 2, 4, 7, 8, 9, 16, 128, 255] {
                assert_eq!(is_good(Instruction { a, ..plain }), fits && a <= most_a);
            }
            for b in [1, 2, 4, 7, 8, 9, 16, 128, 255] {
                assert_eq!(is_good(Instruction { b, ..plain }), fits && b <= most_b);
            }
            for imm in [1, 0x100, 0x1_0000, 1 << 31] {
                assert_eq!(is_good(Instruction { imm, ..plain }), fits && has_imm);
            }
        }
    }
}

fn direct(index: u16) -> Target {
    Target::direct(index, claim(&[]))
}

/// What nine halts with these targets are answered, but for the layout.
fn judged(targets: &[Target]) -> Result<(), (u32, u32)> {
    read(&Module::known(&[halt(); 9], targets).to_bytes()).map(|_| ())
}

#[test]
fn one_target() {
    let judge = |target| judged(&[Target::indirect(0), target]);
    assert_eq!(judge(Target::direct(8, claim(&[(7, (5, 5))]))), Ok(()));
    let bad = Err((7, 1));
    assert_eq!(judge(direct(9)), bad, "an index past the code");
    assert_eq!(
        judge(Target {
            kind: 2,
            ..direct(3)
        }),
        bad,
        "kind"
    );
    assert_eq!(
        judge(Target {
            zero: 1,
            ..direct(3)
        }),
        bad,
        "zero"
    );
    let crossed = Target::direct(2, claim(&[(4, (6, 5))]));
    assert_eq!(judge(crossed), bad, "lowest above highest");
    let narrow = Target {
        kind: INDIRECT,
        ..Target::direct(3, claim(&[(7, (1, u32::MAX))]))
    };
    assert_eq!(judge(narrow), bad, "an indirect target that claims");
}

#[test]
fn targets_together() {
    let indirect = Target::indirect;
    assert_eq!(judged(&[indirect(1)]), Err((7, 0)));
    assert_eq!(judged(&[direct(0)]), Err((7, 0)));
    let twice = [indirect(0), indirect(4), indirect(4)];
    assert_eq!(judged(&twice), Err((7, 2)));
    let falling = [indirect(0), indirect(4), indirect(3)];
    assert_eq!(judged(&falling), Err((7, 2)));
    // A bad instruction comes first.
    let bad = Instruction { op: 16, ..halt() };
    let module = Module::known(&[halt(), bad], &[indirect(1)]);
    assert_eq!(read(&module.to_bytes()), Err((6, 1)));
}
