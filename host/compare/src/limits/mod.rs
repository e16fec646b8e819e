//! What document 02's ticket 8 is compared on: every file and every call of a list by the plate's limits, by ones
//! beside the module's own counts, or by any. What is due there is told by what the box answers: the same, or 17 for a
//! module that is over.

mod kind;

use crate::by_origin::ByOrigin;
use crate::counts::Counts;
use crate::files::same;
use crate::worked::{by_both, garbled, Outcome};
use kind::{counts, number, Call, Kind};
use modules::generate::{Generated, Origin};
use modules::random::Random;
use sides::{Limits, Ran, Read, Refused, Side, Verdict};
use std::fmt;

const OVER: Refused = (17, 0);

/// Nothing is over the box.
pub fn not_over<T: fmt::Debug>(what: &str, on_box: Result<T, Refused>) -> Result<(), String> {
    match on_box {
        Err((17, _)) => Err(format!("{what}: {on_box:?} on the box")),
        _ => Ok(()),
    }
}

/// What is due by limits, where the box answers this.
fn due<T>(file: &[u8], limits: Limits, on_box: Result<T, Refused>) -> Result<T, Refused> {
    let over = || {
        let [instructions, targets] = counts(file);
        !limits.hold(instructions, targets)
    };
    match on_box {
        Err((1..=7, _)) => on_box,
        _ if over() => Err(OVER),
        _ => on_box,
    }
}

fn as_due<T: PartialEq + fmt::Debug>(
    what: &str,
    limits: Limits,
    answer: T,
    due: T,
) -> Result<(), String> {
    if answer == due {
        return Ok(());
    }
    Err(format!("{what} by {limits:?}: {answer:?} and not {due:?}"))
}

/// Limits beside a module's own counts, now and then any at all, and how they differ from these. Where a file is
/// unreadable the counts are those of the tables that it was made from.
fn beside(random: &mut Random, generated: &Generated, readable: bool) -> (Limits, Kind) {
    if random.chance(10) {
        let [instructions, targets] = [(); 2].map(|()| random.word());
        let limits = Limits {
            instructions,
            targets,
        };
        return (limits, Kind::Any);
    }
    let Generated { module, file, .. } = generated;
    let [instructions, targets] = match readable {
        true => counts(file),
        false => [module.code.len() as u32, module.targets.len() as u32],
    };
    let [by, and_by] = [(); 2].map(|()| random.within(-1..=1) as i32);
    let limits = Limits {
        instructions: instructions.wrapping_add_signed(by),
        targets: targets.wrapping_add_signed(and_by),
    };
    (limits, Kind::Beside(by, and_by))
}

/// What a file shows by limits, and the numbers that it was answered by them.
#[derive(Default)]
pub struct Limited {
    kinds: Vec<Kind>,
    verified: Vec<u32>,
    worked_out: Vec<u32>,
}

impl Limited {
    /// Judges a file by limits, where the box answers this, and looks whether all is as due.
    pub fn of(
        generated: &Generated,
        read: Read,
        verified: Verdict,
        worked: &Outcome,
        random: &mut Random,
    ) -> Result<Limited, String> {
        let file = &generated.file;
        let mut limited = Limited::default();
        let (own, kind) = beside(random, generated, read.is_ok());
        for limits in [Limits::PLATE, own] {
            limited.verify(file, limits, verified)?;
        }
        // Within the limits it takes long; so by one of the two.
        let limits = random.pick(&[Limits::PLATE, own]);
        limited.work_out(file, limits, worked)?;
        if read.is_ok() {
            limited.kinds.push(kind);
            limited.kinds.extend(Kind::of_counts(counts(file)));
            limited.look_at_other_claims(&garbled(file, random))?;
        }
        Ok(limited)
    }

    fn verify(&mut self, file: &[u8], limits: Limits, on_box: Verdict) -> Result<(), String> {
        let answer = verify(file, limits)?;
        as_due("verify", limits, answer, due(file, limits, on_box))?;
        self.verified.push(number(answer));
        if limits == Limits::PLATE {
            self.kinds
                .extend(Kind::on_plate(Call::Verify, file, on_box));
        }
        Ok(())
    }

    fn work_out(&mut self, file: &[u8], limits: Limits, on_box: &Outcome) -> Result<(), String> {
        let left = by_both(limits, file)?;
        let answer = due(file, limits, on_box.verdict);
        as_due("work_out", limits, left.verdict, answer)?;
        let bytes = if answer.is_ok() { &on_box.file } else { file };
        if left.file != bytes {
            return Err(format!(
                "work_out by {limits:?}: {answer:?}, but other bytes"
            ));
        }
        self.worked_out.push(number(answer));
        if limits == Limits::PLATE {
            let kind = Kind::on_plate(Call::WorkOut, file, on_box.verdict);
            self.kinds.extend(kind);
        }
        Ok(())
    }

    /// A readable file that is over the plate is so with other claims too, though these may be crossed.
    fn look_at_other_claims(&mut self, garbled: &[u8]) -> Result<(), String> {
        let [instructions, targets] = counts(garbled);
        if Limits::PLATE.hold(instructions, targets) {
            return Ok(());
        }
        let answer = by_both(Limits::PLATE, garbled)?.verdict;
        as_due("work_out", Limits::PLATE, answer, Err(OVER))?;
        match verify(garbled, Limits::PLATE)? {
            Err((7, _)) => self.kinds.push(Kind::CrossedClaim),
            answer => as_due("verify", Limits::PLATE, answer, Err(OVER))?,
        }
        Ok(())
    }
}

fn verify(file: &[u8], limits: Limits) -> Result<Verdict, String> {
    let verdicts = Side::BOTH.map(|side| side.verify(limits, file));
    same("verify", verdicts).map_err(|what| format!("by {limits:?}: {what}"))
}

/// What a call shows by limits, and the number that it was answered.
pub struct LimitedCall {
    kind: Option<Kind>,
    number: u32,
}

impl LimitedCall {
    /// Has a call made that the box answers so, and tells what is due: by the plate's limits or by others.
    pub fn of(
        generated: &Generated,
        by_step: bool,
        on_box: Ran,
        random: &mut Random,
        make: impl FnOnce(Limits, Ran) -> Result<(), String>,
    ) -> Result<LimitedCall, String> {
        let file = &generated.file;
        let readable = !matches!(on_box, Err((1..=7, _)));
        let on_plate = random.chance(70);
        let limits = match on_plate {
            true => Limits::PLATE,
            false => beside(random, generated, readable).0,
        };
        let due = due(file, limits, on_box);
        make(limits, due).map_err(|what| format!("by {limits:?}: {what}"))?;
        let call = if by_step { Call::Step } else { Call::Run };
        let kind = if on_plate {
            Kind::on_plate(call, file, on_box)
        } else {
            let over = due == Err(OVER);
            readable.then_some(Kind::CallBeside { over })
        };
        Ok(LimitedCall {
            kind,
            number: number(due),
        })
    }
}

/// How often each kind occurred, and each answer's number.
#[derive(Default)]
pub struct Limitings {
    kinds: ByOrigin<Kind>,
    pub verify: Counts,
    pub work_out: Counts,
    pub run: Counts,
}

impl Limitings {
    pub fn count(&mut self, origin: Origin, limited: &Limited) {
        for &kind in &limited.kinds {
            self.kinds.count(kind, origin);
        }
        for &number in &limited.verified {
            self.verify.count(number);
        }
        for &number in &limited.worked_out {
            self.work_out.count(number);
        }
    }

    pub fn count_call(&mut self, origin: Origin, call: &LimitedCall) {
        if let Some(kind) = call.kind {
            self.kinds.count(kind, origin);
        }
        self.run.count(call.number);
    }

    /// The wanted kinds that never occurred.
    pub fn missing(&self) -> impl Iterator<Item = String> + '_ {
        let missing = Kind::wanted().filter(|kind| !self.kinds.has(kind));
        missing.map(|kind| format!("{kind} (limits)"))
    }
}

impl fmt::Display for Limitings {
    fn fmt(&self, out: &mut fmt::Formatter<'_>) -> fmt::Result {
        let over = [&self.verify, &self.work_out, &self.run].map(|counts| counts.of(17));
        let [verify, work_out, run] = over;
        writeln!(
            out,
            "By other limits than the box's {verify} verdicts, {work_out} workings out and {run} runs are 17;"
        )?;
        writeln!(
            out,
            "the rest is as on the box. By how the modules were made; limits n, k are a module's own counts."
        )?;
        self.kinds.fmt(out)
    }
}
