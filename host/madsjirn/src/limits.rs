//! What a device holds.

/// How many instructions and targets a device holds; it is the first argument of what judges a module for one.
///
/// A module with more of either is refused by [`Rule::OverPlate`](crate::Rule::OverPlate). Any numbers can stand here:
/// 0 refuses every readable module, and no module has more than [`Limits::BOX`]. A module within the limits of two
/// devices gets the same verdict, the same claims and the same run on both.
///
/// ```
/// use madsjirn::assembly::*;
/// use madsjirn::{verify, write, Layout, Limits, Rule, Target};
///
/// # fn main() -> Result<(), madsjirn::Refusal> {
/// let layout = Layout { base: 0x2000_0000, size: 4096, guard: 256 };
/// let mut file = [0; 21 + 513 * 8 + 68];
/// write(layout, &[halt(); 513], &[Target::indirect(0)], &mut file)?;
/// let refusal = verify(Limits::PLATE, &file).unwrap_err();
/// assert_eq!((refusal.rule, refusal.place), (Rule::OverPlate, 0));
/// // The box goes on to the next rule: nothing leads to what stands behind the first halt.
/// assert_eq!(verify(Limits::BOX, &file).unwrap_err().rule, Rule::Unreachable);
/// # Ok(())
/// # }
/// ```
#[derive(Clone, Copy, Debug, PartialEq, Eq, Hash)]
#[repr(C)]
pub struct Limits {
    /// How many instructions a module may have.
    pub instructions: u32,
    /// How many targets (document 01's "doors") it may have.
    pub targets: u32,
}

impl Limits {
    /// Those of the box: as many as a file can have, so that it never answers 17.
    pub const BOX: Limits = Limits {
        instructions: 4096,
        targets: 256,
    };

    /// Those of the scale plate. The longest module that it takes has 6,293 bytes.
    pub const PLATE: Limits = Limits {
        instructions: 512,
        targets: 32,
    };
}
