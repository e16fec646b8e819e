//! Document 02's ticket 5: "a writer from layout, instructions and doors to bytes; it answers the file's length".

use madsjirn::assembly::*;
use madsjirn::{read, write, Instruction, Layout, Range, Refusal, Rule, Target, LONGEST_FILE};

const LAYOUT: Layout = Layout {
    base: 0x2000_0000,
    size: 4096,
    guard: 256,
};

/// Every instruction by its name, and its bytes as document 01's table and document 02's ticket 2 have them.
const BY_NAME: [(Instruction, [u8; 8]); 20] = [
    (set(R7, 0x8765_4321), [1, 7, 0, 0, 0x21, 0x43, 0x65, 0x87]),
    (copy(R1, R2), [2, 1, 2, 0, 0, 0, 0, 0]),
    (add(R3, R4), [3, 3, 4, 0, 0, 0, 0, 0]),
    (addi(R5, -2), [4, 5, 0, 0, 0xfe, 0xff, 0xff, 0xff]),
    (sub(R6, R0), [5, 6, 0, 0, 0, 0, 0, 0]),
    (andi(R2, 0x3fc), [6, 2, 0, 0, 0xfc, 3, 0, 0]),
    (guard(R1), [7, 1, 0, 0, 0, 0, 0, 0]),
    (shr(R3, 31), [8, 3, 0, 31, 0, 0, 0, 0]),
    (sar(R4, 1), [9, 4, 0, 1, 0, 0, 0, 0]),
    (load(R1, R2, Width::Byte, 1), [10, 1, 2, 1, 1, 0, 0, 0]),
    (load(R3, R4, Width::Half, 0), [10, 3, 4, 2, 0, 0, 0, 0]),
    (
        load(R5, R6, Width::Word, -1),
        [10, 5, 6, 4, 0xff, 0xff, 0xff, 0xff],
    ),
    (
        load(R0, R7, Width::SignedByte, 2),
        [10, 0, 7, 129, 2, 0, 0, 0],
    ),
    (
        load(R2, R1, Width::SignedHalf, 3),
        [10, 2, 1, 130, 3, 0, 0, 0],
    ),
    (
        store(R3, R2, Width::Half, i32::MIN),
        [11, 3, 2, 2, 0, 0, 0, 0x80],
    ),
    (jump(0x0102), [12, 0, 0, 0, 2, 1, 0, 0]),
    (branch(R4, R5, Test::Equal, 6), [13, 4, 5, 0, 6, 0, 0, 0]),
    (branch(R5, R4, Test::Below, 7), [13, 5, 4, 1, 7, 0, 0, 0]),
    (
        branch(R6, R7, Test::SignedBelow, 8),
        [13, 6, 7, 2, 8, 0, 0, 0],
    ),
    (check(R5), [14, 5, 0, 0, 0, 0, 0, 0]),
];

#[test]
fn instructions_by_name() {
    let (mut instructions, bytes): (Vec<_>, Vec<_>) = BY_NAME.into_iter().unzip();
    instructions.extend([jumpr(R5), halt()]);
    let mut due = bytes.concat();
    due.extend([15, 5, 0, 0, 0, 0, 0, 0]);
    due.extend([0; 8]);
    let mut buffer = [0xa5; LONGEST_FILE];
    let length = write(LAYOUT, &instructions, &[Target::indirect(0)], &mut buffer);
    assert_eq!(length, Ok(21 + 22 * 8 + 68));
    assert_eq!(buffer[18..18 + 22 * 8], due);
}

/// Different numbers for every register, in the order of the file.
#[test]
fn targets_and_claims() {
    let registers = [R0, R1, R2, R3, R4, R5, R6, R7];
    let mut direct = Target::direct(1);
    let mut claim = Vec::new();
    for (register, number) in registers.into_iter().zip(1..) {
        let (lowest, highest) = (number * 0x0102_0304, number * 0x1112_1314);
        direct = direct.claim(register, lowest..=highest);
        claim.extend([lowest, highest].map(u32::to_le_bytes));
    }
    let mut file = [0xa5; 173];
    let length = write(
        LAYOUT,
        &[halt(); 2],
        &[Target::indirect(0), direct],
        &mut file,
    );
    assert_eq!(length, Ok(173));
    assert_eq!(file[..3], [1, 12, 0]);
    assert_eq!(file[3..15], [0, 0, 0, 0x20, 0, 0x10, 0, 0, 0, 1, 0, 0]);
    assert_eq!(file[15..18], [2, 16, 0]);
    assert_eq!(file[34..37], [3, 136, 0]);
    assert_eq!(file[37..41], [0, 0, 1, 0]);
    let anything = [0, 0, 0, 0, 0xff, 0xff, 0xff, 0xff];
    assert_eq!(file[41..105], *[anything; 8].as_flattened());
    assert_eq!(file[105..109], [1, 0, 0, 0]);
    assert_eq!(file[109..173], *claim.as_flattened());
    assert_eq!(read(&file).map(|module| module.layout), Ok(LAYOUT));
}

/// The answer and the buffer's bytes, which were all the same.
fn written(
    layout: Layout,
    instructions: &[Instruction],
    targets: &[Target],
    length: usize,
) -> Result<usize, Refusal> {
    let mut buffer = vec![0xa5; length];
    let answer = write(layout, instructions, targets, &mut buffer);
    let end = answer.unwrap_or(0);
    assert_eq!(buffer[end..], vec![0xa5; length - end], "bytes that stay");
    answer
}

#[test]
fn refusals() {
    let refused = |rule, place| Err(Refusal { rule, place });
    let code = [halt(); 3];
    let targets = [Target::indirect(0), Target::direct(2)];
    let length = 21 + 3 * 8 + 2 * 68;
    assert_eq!(written(LAYOUT, &code, &targets, length), Ok(length));
    assert_eq!(written(LAYOUT, &code, &targets, length + 50), Ok(length));

    let no_space = written(LAYOUT, &code, &targets, length - 1);
    assert_eq!(no_space, refused(Rule::NoSpace, 0));
    assert_eq!(no_space.unwrap_err().to_string(), "refused 16 0: no space");
    assert_eq!(
        written(LAYOUT, &code, &targets, 0),
        refused(Rule::NoSpace, 0)
    );

    let bad_layout = Layout {
        guard: 4097,
        ..LAYOUT
    };
    assert_eq!(
        written(bad_layout, &code, &targets, 0),
        refused(Rule::BadLayout, 0)
    );
    assert_eq!(
        written(LAYOUT, &[], &targets, 0),
        refused(Rule::BadLength, 15)
    );
    assert_eq!(written(LAYOUT, &code, &[], 0), refused(Rule::BadLength, 42));
    let many = [halt(); 4097];
    assert_eq!(written(LAYOUT, &many, &[], 0), refused(Rule::BadLength, 15));
    let many = [Target::indirect(0); 257];
    assert_eq!(
        written(LAYOUT, &code, &many, 0),
        refused(Rule::BadLength, 42)
    );

    let register = Instruction { a: 8, ..guard(R1) };
    let wide = Instruction {
        w: 256,
        ..guard(R1)
    };
    for bad in [
        register,
        wide,
        shr(R1, 32),
        store(R0, R1, Width::SignedByte, 0),
    ] {
        let code = [halt(), bad, bad];
        let answer = written(LAYOUT, &code, &targets, 0);
        assert_eq!(answer, refused(Rule::BadInstruction, 1), "{bad:?}");
    }

    let mut crossed = Target::direct(1);
    crossed.claim[3] = Range {
        lowest: 5,
        highest: 4,
    };
    let kind = Target {
        kind: 257,
        ..Target::direct(1)
    };
    let narrow = Target::indirect(1).claim(R7, 1..=u32::MAX);
    for bad in [
        crossed,
        kind,
        narrow,
        Target::direct(3),
        Target::direct(65_537),
    ] {
        let targets = [Target::indirect(0), bad, bad];
        let answer = written(LAYOUT, &code, &targets, 0);
        assert_eq!(answer, refused(Rule::BadTarget, 1), "{bad:?}");
    }
}
