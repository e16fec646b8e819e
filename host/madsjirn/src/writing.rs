//! Writing a module's file.

use crate::answers::Layout;
use crate::calls::judged;
use crate::ffi;
use crate::refusal::Refusal;
use crate::tables::{Instruction, Target};

/// Writes a module's file from its tables into the beginning of `buffer`, and gives the file's length.
///
/// Bytes past the file stay as they were. The file is the only one that has these tables, and [`read`](crate::read())
/// accepts it. Refusals come in this order, and leave every byte of `buffer` as it was:
///
/// - 3, if there are no instructions or more than 4,096, and then if there are no targets or more than 256;
/// - 5, 6 and 7, as a file with these tables would get them; a number that is too large for its field is out of range;
/// - 16, if the file is longer than `buffer`. [`LONGEST_FILE`](crate::LONGEST_FILE) bytes have space for every module.
///
/// A written module is readable, and not more than that: it still has to be accepted for a device, by
/// [`verify`](crate::verify()) or, if its builder leaves the claims of direct targets to it, by
/// [`work_out`](crate::work_out()).
///
/// ```
/// use madsjirn::assembly::*;
/// use madsjirn::{verify, write, Layout, Limits, Rule, Target, LONGEST_FILE};
///
/// # fn main() -> Result<(), madsjirn::Refusal> {
/// let layout = Layout { base: 0x2000_0000, size: 4096, guard: 256 };
/// let instructions = [guard(R1), load(R0, R1, Width::Word, 0), halt()];
/// let targets = [Target::indirect(0)];
/// let mut buffer = [0; LONGEST_FILE];
/// let length = write(layout, &instructions, &targets, &mut buffer)?;
/// assert_eq!(length, 21 + 3 * 8 + 68);
/// assert!(verify(Limits::BOX, &buffer[..length]).is_ok());
///
/// let refusal = write(layout, &instructions, &targets, &mut buffer[..112]).unwrap_err();
/// assert_eq!((refusal.rule, refusal.place), (Rule::NoSpace, 0));
///
/// // Without the guard it is written all the same, but never accepted.
/// let length = write(layout, &instructions[1..], &targets, &mut buffer)?;
/// assert_eq!(verify(Limits::BOX, &buffer[..length]).unwrap_err().rule, Rule::WildAccess);
/// # Ok(())
/// # }
/// ```
///
/// # Panics
///
/// If the library's answer is none that the C interface allows, which the proved library never gives.
pub fn write(
    layout: Layout,
    instructions: &[Instruction],
    targets: &[Target],
    buffer: &mut [u8],
) -> Result<usize, Refusal> {
    let answer = ffi::write(layout, instructions, targets, buffer);
    judged(answer.refusal, answer.place, answer.length == 0)?;
    Ok(answer.length as usize)
}
