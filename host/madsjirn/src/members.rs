//! The structs that are declared again here are those of `include/madsjirn.h`, member by member: `host/c/fields.c` and
//! `host/c/tables.c` assert the same offsets and sizes of the header. A difference is an error when this package is compiled.

use crate::ffi::{Answer, Module, Verdict, Written};
use crate::{Instruction, Limits, Machine, Range, Target};
use core::mem::offset_of;

/// The size of the member that a function picks.
const fn member_size<Struct, Member>(_: fn(&Struct) -> &Member) -> usize {
    size_of::<Member>()
}

macro_rules! assert_members {
    ($type:ident, $size:literal, $($member:ident at $offset:literal with $member_size:literal),+) => {
        const _: () = assert!(size_of::<$type>() == $size);
        $(
            const _: () = assert!(offset_of!($type, $member) == $offset);
            const _: () = assert!(member_size(|one: &$type| &one.$member) == $member_size);
        )+
    };
}

assert_members!(Limits, 8, instructions at 0 with 4, targets at 4 with 4);

assert_members!(Machine, 36, registers at 0 with 32, pc at 32 with 2);

assert_members!(
    Module, 28,
    refusal at 0 with 4,
    place at 4 with 4,
    base at 8 with 4,
    size at 12 with 4,
    guard at 16 with 4,
    instructions at 20 with 4,
    targets at 24 with 4
);

assert_members!(
    Verdict, 16,
    refusal at 0 with 4,
    place at 4 with 4,
    instructions at 8 with 4,
    targets at 12 with 4
);

assert_members!(
    Answer, 24,
    refusal at 0 with 4,
    place at 4 with 4,
    ending at 8 with 4,
    steps at 16 with 8
);

assert_members!(
    Instruction, 20,
    op at 0 with 4,
    a at 4 with 4,
    b at 8 with 4,
    w at 12 with 4,
    imm at 16 with 4
);

assert_members!(Range, 8, lowest at 0 with 4, highest at 4 with 4);

assert_members!(Target, 72, index at 0 with 4, kind at 4 with 4, claim at 8 with 64);

assert_members!(
    Written, 12,
    refusal at 0 with 4,
    place at 4 with 4,
    length at 8 with 4
);
