//! Instructions, read as far as they are asked for.

use crate::reader::Instruction;

/// The bit of a load's w that says to carry the sign up.
pub(crate) const SIGN: u8 = 128;

/// An instruction, decoded straight from its bytes and only as far as it is asked for.
/// The masks never matter to judged code; they spare the checks on what they index.
#[derive(Clone, Copy)]
pub(crate) struct Decoder<'a>(pub &'a Instruction);

impl Decoder<'_> {
    #[inline(always)]
    pub fn op(self) -> u8 {
        self.0[0] & 15
    }

    #[inline(always)]
    pub fn a(self) -> usize {
        usize::from(self.0[1] & 7)
    }

    #[inline(always)]
    pub fn b(self) -> usize {
        usize::from(self.0[2] & 7)
    }

    #[inline(always)]
    pub fn w(self) -> u8 {
        self.0[3]
    }

    /// How many bytes a load or store moves.
    #[inline(always)]
    pub fn bytes(self) -> u8 {
        self.w() & !SIGN
    }

    /// Whether a load carries the sign up.
    #[inline(always)]
    pub fn is_signed(self) -> bool {
        self.w() & SIGN != 0
    }

    #[inline(always)]
    pub fn imm(self) -> u32 {
        let [_, _, _, _, imm @ ..] = self.0;
        u32::from_le_bytes(*imm)
    }
}
