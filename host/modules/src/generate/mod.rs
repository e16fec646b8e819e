//! Generated files: accepted ones, ones that break a rule by a hair, damaged ones, ones whose verdict depends on
//! document 02, ones whose claims are to be worked out, ones whose targets are to be found, and ones around the limits
//! of the plate. And faults of tables that are to be written.

mod access;
mod body;
mod claims;
mod damage;
mod faults;
mod grouped;
mod growing;
mod near;
mod plate;
mod shape;
mod turned;
mod valid;

pub use faults::{faults, with_faults, Fault, Part};
pub use growing::garbled_claim;

use crate::encode::Module;
use crate::random::Random;

/// How a file was made.
#[derive(Clone, Copy, Debug, PartialEq, Eq)]
pub enum Origin {
    /// Made to be accepted.
    Valid,
    /// An accepted module with a rule or two broken, by a hair.
    Near,
    /// Bytes flipped, cut, added or moved.
    Damaged,
    /// Accepted, and refused by rule N as it was: a range is narrower now.
    Narrowed,
    /// Refused, and accepted by rule N as it was: a cut of rule N is empty now.
    EmptyN,
    /// Refused, and accepted by rule N as it was: a cut of rule B is empty now.
    EmptyB,
    /// Refused, and accepted if a load did not carry the sign up.
    Signed,
    /// With garbled claims, and claims that grow when they are worked out.
    Growing,
    /// Accepted, with targets where groups of 64 instructions begin and end.
    Grouped,
    /// Accepted on the box, with about as many instructions or targets as the plate holds.
    Plate,
}

impl Origin {
    pub const ALL: [Origin; 10] = [
        Origin::Valid,
        Origin::Near,
        Origin::Damaged,
        Origin::Narrowed,
        Origin::EmptyN,
        Origin::EmptyB,
        Origin::Signed,
        Origin::Growing,
        Origin::Grouped,
        Origin::Plate,
    ];

    pub fn name(self) -> &'static str {
        match self {
            Origin::Valid => "valid",
            Origin::Near => "near miss",
            Origin::Damaged => "damaged",
            Origin::Narrowed => "narrowed",
            Origin::EmptyN => "empty N",
            Origin::EmptyB => "empty B",
            Origin::Signed => "signed",
            Origin::Growing => "growing",
            Origin::Grouped => "grouped",
            Origin::Plate => "plate",
        }
    }

    /// Whether the module is made to be accepted on the box, or to be refused there.
    pub fn accepted(self) -> Option<bool> {
        match self {
            Origin::Valid | Origin::Narrowed | Origin::Grouped | Origin::Plate => Some(true),
            Origin::EmptyN | Origin::EmptyB | Origin::Signed => Some(false),
            Origin::Near | Origin::Damaged | Origin::Growing => None,
        }
    }

    /// The same by rule N as it was.
    pub fn accepted_earlier(self) -> Option<bool> {
        match self {
            Origin::Narrowed => Some(false),
            Origin::EmptyN | Origin::EmptyB => Some(true),
            _ => None,
        }
    }
}

/// A generated file.
pub struct Generated {
    pub origin: Origin,
    /// The tables it was made from; for a damaged file those before the damage.
    pub module: Module,
    pub file: Vec<u8>,
}

/// A file of any origin.
pub fn generate(random: &mut Random) -> Generated {
    let origin = match random.below(100) {
        0..=22 => Origin::Valid,
        23 => Origin::Plate,
        24 | 25 => Origin::Grouped,
        26..=65 => Origin::Near,
        66..=83 => Origin::Damaged,
        84..=91 => Origin::Growing,
        92 | 93 => Origin::Narrowed,
        94 | 95 => Origin::EmptyN,
        96 | 97 => Origin::EmptyB,
        _ => Origin::Signed,
    };
    generate_from(origin, random)
}

pub fn generate_from(origin: Origin, random: &mut Random) -> Generated {
    let mut module = match origin {
        Origin::Valid => valid::module(random),
        Origin::Near | Origin::Damaged => whole(random),
        Origin::Growing => growing::module(random),
        Origin::Narrowed => turned::narrowed(random),
        Origin::EmptyN => turned::empty_n(random),
        Origin::EmptyB => turned::empty_b(random),
        Origin::Signed => turned::signed(random),
        Origin::Grouped => grouped::module(random),
        Origin::Plate => plate::module(random),
    };
    if origin == Origin::Near {
        near::break_rules(random, &mut module);
    }
    let mut file = module.to_bytes();
    if origin == Origin::Damaged {
        damage::damage(random, &mut file);
    }
    Generated {
        origin,
        module,
        file,
    }
}

/// An accepted module, now and then one that rule N as it was refuses, one whose claims are to be worked out, one whose
/// targets stand in groups, or one around the limits of the plate.
fn whole(random: &mut Random) -> Module {
    match random.below(100) {
        0..=7 => turned::narrowed(random),
        8..=15 => growing::module(random),
        16 => grouped::module(random),
        17 => plate::module(random),
        _ => valid::module(random),
    }
}
