//! One generated file: what `read` and `verify` answer, what `work_out` makes of it, what `write` makes of its tables,
//! what is found of its targets, and what it is by limits other than the box's.

use crate::difference::hexadecimal;
use crate::limits::{not_over, Limited};
use crate::lookups::Looked;
use crate::signed::Seen;
use crate::tally::Tally;
use crate::worked::Worked;
use crate::written::Written;
use modules::generate::{generate, Generated, Origin};
use modules::random::Random;
use sides::{verify_by_earlier_rule_n, Limits, Side, Verdict};

pub fn compare_file(seed: u64, case: u64, tally: &mut Tally) -> Result<(), String> {
    let mut random = Random::for_case(seed, case);
    let generated = generate(&mut random);
    judge(&generated, &mut random, tally).map_err(|what| {
        let (origin, file) = (generated.origin.name(), hexadecimal(&generated.file));
        format!("{what}\norigin: {origin}\nfile: {file}")
    })
}

fn judge(generated: &Generated, random: &mut Random, tally: &mut Tally) -> Result<(), String> {
    let file = &generated.file;
    let read = same("read", Side::BOTH.map(|side| side.read(file)))?;
    let verified = Side::BOTH.map(|side| side.verify(Limits::BOX, file));
    let verified = same("verify", verified)?;
    not_over("verify", verified)?;
    let earlier = verify_by_earlier_rule_n(file);
    as_made(generated.origin.accepted(), verified)?;
    as_made(generated.origin.accepted_earlier(), earlier)
        .map_err(|what| format!("by rule N as it was: {what}"))?;
    let seen = Seen::of(file, verified);
    if generated.origin == Origin::Signed && !seen.is_turned() {
        return Err("made to be accepted without the sign, but is not".into());
    }
    let worked = Worked::of(file, verified, random)?;
    let written = Written::of(file, read, random)?;
    let limited = Limited::of(generated, read, verified, &worked.outcome, random)?;
    tally.count_module(generated.origin, read, verified);
    tally.count_worked(generated.origin, &worked);
    tally.count_written(generated.origin, &written);
    tally.count_limited(generated.origin, &limited);
    tally.count_turn(generated.origin, verified, earlier);
    tally.count_signed(generated.origin, &seen);
    if verified.is_ok() {
        tally.count_shapes(generated.origin, file);
    }
    if generated.origin == Origin::Grouped {
        tally.count_looked(&Looked::of(&generated.module, file, random)?);
    }
    Ok(())
}

/// A module that was made to be accepted, or to be refused, must be so.
fn as_made(accepted: Option<bool>, verified: Verdict) -> Result<(), String> {
    match (accepted, verified) {
        (Some(true), Err(_)) => Err(format!("made to be accepted, but {verified:?}")),
        (Some(false), Ok(_)) => Err(format!("made to be refused, but {verified:?}")),
        _ => Ok(()),
    }
}

/// The common answer, of both sides' answers.
pub fn same<T: PartialEq + std::fmt::Debug>(what: &str, answers: [T; 2]) -> Result<T, String> {
    let [proved, handwritten] = answers;
    if proved == handwritten {
        return Ok(proved);
    }
    let [one, other] = Side::BOTH.map(Side::name);
    Err(format!(
        "{what} differs\n{one}: {proved:?}\n{other}: {handwritten:?}"
    ))
}
