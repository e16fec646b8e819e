//! Document 02's ticket 5: files from tables, refusals in the order 3, 5, 6, 7, 16, and bytes that stay.

use crate::both::{read, write};
use crate::form::row;
use modules::assembler::halt;
use modules::encode::{claim, Module, Range, Target, DIRECT, INDIRECT};
use modules::gate;
use modules::samples::{document_loop, largest, mixed, slowest};
use modules::tables::{InstructionRow, Tables, TargetRow};

/// Where the second field begins, and the third of the loop.
const SECOND: u32 = 15;
const THIRD: u32 = 50;

/// What tables are answered where the buffer is long enough.
fn judged(tables: &Tables) -> Result<u32, (u32, u32)> {
    write(tables, &mut [0x5a; 50_197])
}

/// Asserts that a file's tables are written as the file, into a buffer as long and into a longer one.
fn is_written_again(file: &[u8]) {
    let tables = Tables::decode(file);
    assert_eq!(tables.narrowed().to_bytes(), file);
    for more in [0, 1, 1000] {
        let mut buffer = vec![0x5a; file.len() + more];
        assert_eq!(write(&tables, &mut buffer), Ok(file.len() as u32));
        assert!(buffer.starts_with(file));
        assert_eq!(buffer[file.len()..], vec![0x5a; more]);
    }
}

#[test]
fn what_was_read() {
    for module in [document_loop(), largest(), mixed(), slowest()] {
        is_written_again(&module.to_bytes());
    }
    let readable = gate::cases().into_iter();
    let readable = readable.filter(|case| read(&case.file).is_ok());
    assert!(readable.map(|case| is_written_again(&case.file)).count() > 10);
}

#[test]
fn the_smallest() {
    let module = Module::known(&[halt()], &[Target::indirect(0)]);
    assert_eq!(module.to_bytes().len(), 97);
    is_written_again(&module.to_bytes());
}

#[test]
fn every_length_of_a_buffer() {
    let file = document_loop().to_bytes();
    let tables = Tables::of(&document_loop());
    for length in 0..file.len() + 3 {
        let due = match length < file.len() {
            true => Err((16, 0)),
            false => Ok(file.len() as u32),
        };
        assert_eq!(write(&tables, &mut vec![0x5a; length]), due, "{length}");
    }
}

/// As many rows of the loop, or more of another.
fn with_counts(instructions: usize, targets: usize) -> Tables {
    let mut tables = Tables::of(&document_loop());
    tables
        .instructions
        .resize(instructions, InstructionRow::default());
    let last = tables.targets[1];
    tables.targets.resize(targets, last);
    tables
}

/// 8,192 instructions have 2^16 bytes and 16,384 targets 17 times as many, so that lengths of 16 bits would be those of
/// none, and of one for one more.
#[test]
fn counts() {
    for instructions in [0, 4097, 8192, 8193, 65_536, 65_540] {
        for targets in [0, 2, 257] {
            let answer = judged(&with_counts(instructions, targets));
            assert_eq!(answer, Err((3, SECOND)), "{instructions} {targets}");
        }
    }
    for targets in [0, 257, 258, 512, 16_384, 16_385, 65_538] {
        let answer = judged(&with_counts(4, targets));
        assert_eq!(answer, Err((3, THIRD)), "{targets}");
    }
    assert_eq!(judged(&with_counts(1, 0)), Err((3, 26)));
    assert_eq!(judged(&with_counts(4096, 257)), Err((3, 32_786)));
    // The third target has the index of the second.
    assert_eq!(judged(&with_counts(4096, 256)), Err((7, 2)));
}

#[test]
fn the_order() {
    let mut tables = Tables::of(&document_loop());
    tables.layout.size = 4095;
    tables.instructions[3].op = 256;
    tables.instructions[2].w = 1;
    tables.targets[1].kind = 257;
    tables.targets[0].index = 65_536;
    let few = |tables: &Tables| write(tables, &mut [0x5a; 188]);
    let mut none = tables.clone();
    none.targets.clear();
    assert_eq!(few(&none), Err((3, THIRD)));
    none.instructions.clear();
    assert_eq!(few(&none), Err((3, SECOND)));

    assert_eq!(few(&tables), Err((5, 0)));
    tables.layout.size = 4096;
    assert_eq!(few(&tables), Err((6, 2)));
    tables.instructions[2].w = 0;
    assert_eq!(few(&tables), Err((6, 3)));
    tables.instructions[3].op = 12;
    assert_eq!(few(&tables), Err((7, 0)));
    tables.targets[0].index = 0;
    assert_eq!(few(&tables), Err((7, 1)));
    tables.targets[1].kind = 0;
    assert_eq!(few(&tables), Err((16, 0)));
    assert_eq!(judged(&tables), Ok(189));
}

#[test]
fn layouts() {
    for ([base, size, guard], good) in [
        ([0, 256, 0], true),
        ([0x2000_0000, 65_536, 4096], true),
        ([0xffff_f000, 4096, 0], true),
        ([4096, 4096, 4096], true),
        ([0x2000_0000, 0, 0], false),
        ([0x2000_0000, 128, 0], false),
        ([0x2000_0000, 131_072, 0], false),
        ([0x2000_0000, 768, 0], false),
        ([0x2000_0000, 4096, 4097], false),
        ([0x2000_0800, 4096, 0], false),
        ([0, 4096, 1], false),
        ([0xffff_f000, 4096, 1], false),
    ] {
        let mut tables = Tables::of(&document_loop());
        tables.layout.base = base;
        tables.layout.size = size;
        tables.layout.guard = guard;
        let due = if good { Ok(189) } else { Err((5, 0)) };
        assert_eq!(judged(&tables), due, "{base:x} {size} {guard}");
    }
}

/// Whether an instruction is good: the one after it is bad, so a good one is passed over.
fn is_good(instruction: InstructionRow) -> bool {
    let mut tables = Tables::of(&Module::known(&[halt(); 3], &[Target::indirect(0)]));
    tables.instructions[1] = instruction;
    tables.instructions[2].op = 99;
    match write(&tables, &mut [0x5a; 113]) {
        Err((6, index @ 1..=2)) => index == 2,
        other => panic!("{other:?} for {instruction:?}"),
    }
}

/// Numbers that no byte holds, whose lowest byte is this one.
fn wider(byte: u32) -> [u32; 5] {
    [1 << 8, 2 << 8, 1 << 16, 1 << 31, u32::MAX << 8].map(|more| more | byte)
}

#[test]
fn instructions() {
    for opcode in 0..=255 {
        let (most_a, most_b, widths, has_imm) = row(opcode);
        let op = u32::from(opcode);
        for w in 0..=255u8 {
            let fits = widths.contains(&w);
            let plain = InstructionRow {
                op,
                w: w.into(),
                ..InstructionRow::default()
            };
            for a in [0, 1, 7, 8, 255] {
                let good = is_good(InstructionRow { a, ..plain });
                assert_eq!(good, fits && a <= most_a.into());
            }
            for b in [1, 7, 8, 255] {
                let good = is_good(InstructionRow { b, ..plain });
                assert_eq!(good, fits && b <= most_b.into());
            }
            for imm in [1, 1 << 31] {
                let good = is_good(InstructionRow { imm, ..plain });
                assert_eq!(good, fits && has_imm);
            }
        }
    }
}

/// What a byte can't hold is never cut to what it can.
#[test]
fn wide_instructions() {
    for opcode in 0..=15 {
        let (.., widths, _) = row(opcode);
        for w in widths {
            let good = InstructionRow {
                op: opcode.into(),
                w: w.into(),
                ..InstructionRow::default()
            };
            assert!(is_good(good));
            for number in 0..5 {
                let op = wider(good.op)[number];
                assert!(!is_good(InstructionRow { op, ..good }));
                let w = wider(good.w)[number];
                assert!(!is_good(InstructionRow { w, ..good }));
                let zero = wider(0)[number];
                assert!(!is_good(InstructionRow { a: zero, ..good }));
                assert!(!is_good(InstructionRow { b: zero, ..good }));
            }
        }
    }
}

fn target(index: u32, kind: u8, ranges: &[(usize, Range)]) -> TargetRow {
    TargetRow {
        index,
        kind: kind.into(),
        claim: claim(ranges),
    }
}

/// What nine halts with these targets are answered.
fn with_targets(targets: &[TargetRow]) -> Result<u32, (u32, u32)> {
    let mut tables = Tables::of(&Module::known(&[halt(); 9], &[]));
    tables.targets = targets.to_vec();
    judged(&tables)
}

#[test]
fn targets() {
    let first = target(0, INDIRECT, &[]);
    let second = |second: TargetRow| with_targets(&[first, second]);
    let good = Ok(21 + 9 * 8 + 2 * 68);
    let bad = Err((7, 1));
    assert_eq!(second(target(8, DIRECT, &[(7, (5, 5))])), good);
    assert_eq!(second(target(1, INDIRECT, &[])), good);
    for index in [0, 9, 65_535, 65_536, 65_537, 65_544, 1 << 31 | 3, u32::MAX] {
        assert_eq!(second(target(index, DIRECT, &[])), bad, "{index}");
    }
    for kind in [2, 3, 255, 256, 257, 1 << 16, 1 << 24, 1 << 31 | 1, u32::MAX] {
        let row = TargetRow {
            kind,
            ..target(3, DIRECT, &[])
        };
        assert_eq!(second(row), bad, "{kind}");
    }
    for register in 0..8 {
        let crossed = target(3, DIRECT, &[(register, (6, 5))]);
        assert_eq!(second(crossed), bad);
        for range in [(1, u32::MAX), (0, u32::MAX - 1)] {
            assert_eq!(second(target(3, DIRECT, &[(register, range)])), good);
            assert_eq!(second(target(3, INDIRECT, &[(register, range)])), bad);
        }
    }
}

#[test]
fn targets_together() {
    let indirect = |index| target(index, INDIRECT, &[]);
    assert_eq!(with_targets(&[indirect(1)]), Err((7, 0)));
    assert_eq!(with_targets(&[target(0, DIRECT, &[])]), Err((7, 0)));
    let twice = [indirect(0), indirect(4), indirect(4)];
    assert_eq!(with_targets(&twice), Err((7, 2)));
    let falling = [indirect(0), indirect(4), indirect(3)];
    assert_eq!(with_targets(&falling), Err((7, 2)));
    let lowest = [indirect(0), indirect(65_536), indirect(9)];
    assert_eq!(with_targets(&lowest), Err((7, 1)));
}
