//! Loads and stores of any width.

use crate::assembler::{load, load_signed, store};
use crate::encode::Instruction;
use crate::random::Random;

/// How many bytes an access moves.
pub fn any_bytes(random: &mut Random) -> u8 {
    random.pick(&[1, 2, 4])
}

/// A load of so many bytes. Of fewer than four it may carry the sign up.
pub fn any_load(random: &mut Random, a: u8, b: u8, bytes: u8, imm: i32) -> Instruction {
    if bytes < 4 && random.chance(50) {
        load_signed(a, b, bytes, imm)
    } else {
        load(a, b, bytes, imm)
    }
}

pub fn load_or_store(random: &mut Random, a: u8, b: u8, bytes: u8, imm: i32) -> Instruction {
    if random.chance(50) {
        store(a, b, bytes, imm)
    } else {
        any_load(random, a, b, bytes, imm)
    }
}
