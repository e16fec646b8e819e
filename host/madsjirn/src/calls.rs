//! Reading and running. Each function turns the numbers of a C answer into types.

use crate::answers::{Ending, Layout, Machine, Module, Run};
use crate::ffi;
use crate::limits::Limits;
use crate::refusal::{Refusal, Rule};

/// Reads a module: rules 1 to 7. It knows no device, and the counts say which [`Limits`] the module keeps.
///
/// ```
/// let refusal = madsjirn::read(b"").unwrap_err();
/// assert_eq!(refusal.to_string(), "refused 1 0: truncated (short)");
/// ```
///
/// # Panics
///
/// If the library's answer is none that the C interface allows, which the proved library never gives.
pub fn read(file: &[u8]) -> Result<Module, Refusal> {
    let answer = ffi::read(file);
    let layout = Layout {
        base: answer.base,
        size: answer.size,
        guard: answer.guard,
    };
    let module = Module {
        layout,
        instructions: answer.instructions,
        targets: answer.targets,
    };
    let rest = [
        layout.base,
        layout.size,
        layout.guard,
        module.instructions,
        module.targets,
    ];
    judged(answer.refusal, answer.place, rest == [0; 5])?;
    Ok(module)
}

/// Runs a module for at most `budget` steps. Its region is the layout's size bytes of `memory` from `offset` on.
///
/// It changes the machine and bytes of the region, and no other byte. The module need not be accepted, only readable
/// and within the limits: refusals are 1 to 7, then 17, then 14 and 15. A refusal leaves machine and memory as they
/// were.
/// For an accepted module there is [`Verified::run`](crate::Verified::run), with its promise.
///
/// ```
/// use madsjirn::{run, Limits, Machine};
///
/// let mut machine = Machine::default();
/// let refusal = run(Limits::BOX, b"no module", &mut machine, &mut [0; 300], 0, 1_000).unwrap_err();
/// assert_eq!(refusal.to_string(), "refused 2 0: wrong tag");
/// assert_eq!(machine, Machine::default());
/// ```
///
/// # Panics
///
/// If the library's answer is none that the C interface allows, which the proved library never gives.
pub fn run(
    limits: Limits,
    file: &[u8],
    machine: &mut Machine,
    memory: &mut [u8],
    offset: usize,
    budget: u64,
) -> Result<Run, Refusal> {
    made(ffi::run(limits, file, machine, memory, offset, budget))
}

/// Makes one step: a [`run`] with budget 1.
///
/// A step after which the run could go on answers [`Ending::OutOfBudget`].
///
/// ```
/// use madsjirn::{step, Limits, Machine};
///
/// let refusal = step(Limits::PLATE, &[2], &mut Machine::default(), &mut [], usize::MAX).unwrap_err();
/// assert_eq!(refusal.to_string(), "refused 1 0: truncated (short)");
/// ```
///
/// # Panics
///
/// If the library's answer is none that the C interface allows, which the proved library never gives.
pub fn step(
    limits: Limits,
    file: &[u8],
    machine: &mut Machine,
    memory: &mut [u8],
    offset: usize,
) -> Result<Run, Refusal> {
    made(ffi::step(limits, file, machine, memory, offset))
}

fn made(answer: ffi::Answer) -> Result<Run, Refusal> {
    let ffi::Answer { ending, steps, .. } = answer;
    let nothing_made = (ending, steps) == (ffi::REFUSED, 0);
    judged(answer.refusal, answer.place, nothing_made)?;
    let ending = Ending::from_number(ending)
        .unwrap_or_else(|| panic!("libmadsjirn answered ending {ending}"));
    Ok(Run { ending, steps })
}

/// The refusal, if there is one. The members after it must then be `empty`.
pub(crate) fn judged(refusal: u32, place: u32, empty: bool) -> Result<(), Refusal> {
    if refusal == 0 {
        return Ok(());
    }
    let rule = Rule::from_number(refusal)
        .unwrap_or_else(|| panic!("libmadsjirn answered refusal {refusal}"));
    assert!(
        empty,
        "libmadsjirn answered refusal {refusal} with a result"
    );
    Err(Refusal { rule, place })
}
