//! Rules 6 and 7. A number that is too large for its field has low bits that would do.

use super::{Break, Named};
use crate::encode::{op, DIRECT, INDIRECT};
use crate::random::Random;
use crate::tables::{InstructionRow, Tables, TargetRow};

// Rule 6.

type Member = fn(&mut InstructionRow) -> &mut u32;

const OP: Member = |row| &mut row.op;
const A: Member = |row| &mut row.a;
const B: Member = |row| &mut row.b;
const W: Member = |row| &mut row.w;
const IMM: Member = |row| &mut row.imm;

pub const INSTRUCTION_BREAKS: &[Named<Break>] = &[
    ("op above 15", |random, tables| {
        put(random, tables, OP, &[16, 17, 32, 128, 255])
    }),
    ("op above a byte", |random, tables| {
        widen(random, tables, OP)
    }),
    ("a above 7", |random, tables| {
        put(random, tables, A, &[8, 9, 16, 255])
    }),
    ("a above a byte", |random, tables| widen(random, tables, A)),
    ("b above 7", |random, tables| {
        put(random, tables, B, &[8, 9, 16, 255])
    }),
    ("b above a byte", |random, tables| widen(random, tables, B)),
    ("w out of range", |random, tables| {
        put(random, tables, W, &[32, 33, 64, 128, 131, 132, 133, 255])
    }),
    ("w above a byte", |random, tables| widen(random, tables, W)),
    ("signed store", |random, tables| {
        let width = random.pick(&[129, 130]);
        let mut rows = tables.instructions.iter_mut();
        let store = rows.find(|row| row.op == u32::from(op::STORE));
        store.map(|row| row.w = width).is_some()
    }),
    ("unused not zero", |random, tables| {
        let row = any_instruction(random, tables);
        let members = unused(row.op);
        if members.is_empty() {
            return false;
        }
        *random.pick(members)(row) = random.word().max(1);
        true
    }),
];

fn any_instruction<'a>(random: &mut Random, tables: &'a mut Tables) -> &'a mut InstructionRow {
    let index = random.below(tables.instructions.len());
    &mut tables.instructions[index]
}

fn put(random: &mut Random, tables: &mut Tables, member: Member, bad: &[u32]) -> bool {
    *member(any_instruction(random, tables)) = random.pick(bad);
    true
}

fn widen(random: &mut Random, tables: &mut Tables, member: Member) -> bool {
    *member(any_instruction(random, tables)) |= above_a_byte(random);
    true
}

fn above_a_byte(random: &mut Random) -> u32 {
    random.pick(&[1 << 8, 2 << 8, 1 << 16, 1 << 31, u32::MAX << 8])
}

/// The members that an opcode doesn't use.
fn unused(opcode: u32) -> &'static [Member] {
    match u8::try_from(opcode) {
        Ok(op::HALT) => &[A, B, W, IMM],
        Ok(op::SET | op::ADDI | op::ANDI) => &[B, W],
        Ok(op::COPY | op::ADD | op::SUB) => &[W, IMM],
        Ok(op::GUARD | op::CHECK | op::JUMPR) => &[B, W, IMM],
        Ok(op::SHR | op::SAR) => &[B, IMM],
        Ok(op::JUMP) => &[A, B, W],
        _ => &[],
    }
}

// Rule 7.

pub const TARGET_BREAKS: &[Named<Break>] = &[
    ("index does not rise", |random, tables| {
        let number = random.below(tables.targets.len());
        let Some(before) = number.checked_sub(1) else {
            return false;
        };
        let before = tables.targets[before].index;
        tables.targets[number].index = before - before.min(random.pick(&[0, 0, 1]));
        true
    }),
    ("index past the code", |random, tables| {
        let past = tables.instructions.len() as u32;
        let index = random.pick(&[past, past + 1, 4096, 65_535]);
        any_target(random, tables).index = index;
        true
    }),
    ("index above 16 bits", |random, tables| {
        let more = random.pick(&[1 << 16, 1 << 17, 1 << 31, u32::MAX << 16]);
        any_target(random, tables).index |= more;
        true
    }),
    ("kind above 1", |random, tables| {
        any_target(random, tables).kind = random.pick(&[2, 3, 128, 255]);
        true
    }),
    ("kind above a byte", |random, tables| {
        any_target(random, tables).kind |= above_a_byte(random);
        true
    }),
    ("direct claim crossed", |random, tables| {
        let word = random.word().max(1);
        let crossed = random.pick(&[(word, word - 1), (u32::MAX, 0), (1, 0)]);
        claim(random, tables, DIRECT, crossed)
    }),
    ("indirect claim narrow", |random, tables| {
        let narrow = random.pick(&[(1, u32::MAX), (0, u32::MAX - 1), (0, 0), (u32::MAX, 0)]);
        claim(random, tables, INDIRECT, narrow)
    }),
    ("first target direct", |_, tables| {
        tables.targets[0].kind = DIRECT.into();
        true
    }),
    ("first index not 0", |_, tables| {
        tables.targets[0].index = 1;
        true
    }),
];

fn any_target<'a>(random: &mut Random, tables: &'a mut Tables) -> &'a mut TargetRow {
    let number = random.below(tables.targets.len());
    &mut tables.targets[number]
}

/// A range for a register of some target of a kind, if there is one.
fn claim(random: &mut Random, tables: &mut Tables, kind: u8, range: (u32, u32)) -> bool {
    let register = random.below(8);
    let target = any_target(random, tables);
    let found = target.kind == u32::from(kind);
    if found {
        target.claim[register] = range;
    }
    found
}
