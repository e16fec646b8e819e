//! How often each refusal, each ending, a long budget, each turn of a verdict, each kind of signed load, of claims that
//! are worked out, of tables that are written, of targets that are found, of limits and of single accesses occurred, so
//! that nothing is believed compared that never happened.

use crate::accesses::Accesses;
use crate::counts::Counts;
use crate::limits::{Limited, LimitedCall, Limitings};
use crate::lookups::{Looked, Lookups};
use crate::shapes::Shapes;
use crate::signed::{Seen, Signed};
use crate::turns::Turns;
use crate::worked::{Worked, Workings};
use crate::written::{Writings, Written};
use madsjirn::{Ending, Rule};
use modules::generate::Origin;
use sides::{Ran, Read, Refused, Verdict};
use std::collections::BTreeSet;
use std::fmt;

#[derive(Default)]
pub struct Tally {
    /// Modules by origin, in the order of `Origin::ALL`, and how many of them were accepted.
    modules: [(u64, u64); Origin::ALL.len()],
    turns: Turns,
    signed: Signed,
    workings: Workings,
    writings: Writings,
    shapes: Shapes,
    lookups: Lookups,
    limitings: Limitings,
    pub accesses: Accesses,
    /// Refusals on the box by number; 0 counts what was not refused.
    read: Counts,
    verify: Counts,
    work_out: Counts,
    run: Counts,
    endings: Counts,
    lists: u64,
    calls: u64,
    steps: u64,
    longest_run: u64,
    /// Runs that would have ended otherwise if their budget had been cut to 32 bits.
    long_budgets: u64,
    /// Calls of lists whose module is accepted and which began at an indirect target.
    safe_calls: u64,
}

impl Tally {
    pub fn count_module(&mut self, origin: Origin, read: Read, verified: Verdict) {
        let (made, accepted) = &mut self.modules[origin as usize];
        *made += 1;
        *accepted += u64::from(verified.is_ok());
        self.read.count(number(read.err()));
        self.verify.count(number(verified.err()));
    }

    /// Counts a verdict that is another by rule N as it was.
    pub fn count_turn(&mut self, origin: Origin, verified: Verdict, earlier: Verdict) {
        self.turns.count(origin, verified, earlier);
    }

    /// Counts what a file shows of loads that carry the sign up.
    pub fn count_signed(&mut self, origin: Origin, seen: &Seen) {
        self.signed.count(origin, seen);
    }

    /// Counts a run that would end otherwise if the loads of this width didn't carry the sign up.
    pub fn count_signed_run(&mut self, width: u8) {
        self.signed.count_run(width);
    }

    /// Counts what became of a file's claims.
    pub fn count_worked(&mut self, origin: Origin, worked: &Worked) {
        self.work_out.count(number(worked.outcome.verdict.err()));
        self.workings.count(origin, worked);
    }

    /// Counts what became of a file's tables.
    pub fn count_written(&mut self, origin: Origin, written: &Written) {
        self.writings.count(origin, written);
    }

    /// Counts what a file is by other limits.
    pub fn count_limited(&mut self, origin: Origin, limited: &Limited) {
        self.limitings.count(origin, limited);
    }

    /// Counts what a call is by other limits.
    pub fn count_limited_call(&mut self, origin: Origin, call: &LimitedCall) {
        self.limitings.count_call(origin, call);
    }

    /// Counts how an accepted file's targets stand.
    pub fn count_shapes(&mut self, origin: Origin, file: &[u8]) {
        self.shapes.count(origin, file);
    }

    /// Counts what was looked up in a module.
    pub fn count_looked(&mut self, looked: &Looked) {
        self.lookups.count(looked);
    }

    pub fn count_list(&mut self) {
        self.lists += 1;
    }

    pub fn count_call(&mut self, budget: u64, ran: Ran, safe: bool) {
        self.calls += 1;
        self.safe_calls += u64::from(safe);
        self.run.count(number(ran.err()));
        if let Ok((ending, steps)) = ran {
            self.endings.count(ending);
            self.steps += steps;
            self.longest_run = self.longest_run.max(steps);
            self.long_budgets += u64::from(u64::from(budget as u32) < steps);
        }
    }

    /// The refusals, endings, long budgets, turns, and kinds of signed loads, of claims worked out, of tables written,
    /// of targets, of targets found, of limits and of accesses that never occurred.
    pub fn missing(&self) -> Vec<String> {
        let refusals = Rule::ALL.into_iter().filter(|rule| {
            let times = self.refusals(rule.number());
            times.iter().sum::<u64>() == 0
        });
        let endings = Ending::ALL.into_iter();
        let endings = endings.filter(|ending| self.endings.of(ending.number()) == 0);
        refusals
            .map(|rule| rule.to_string())
            .chain(endings.map(|ending| ending.to_string()))
            .chain((self.long_budgets == 0).then(|| "a budget past 32 bits".into()))
            .chain(self.turns.missing())
            .chain(self.signed.missing())
            .chain(self.workings.missing())
            .chain(self.writings.missing())
            .chain(self.shapes.missing())
            .chain(self.lookups.missing())
            .chain(self.limitings.missing())
            .chain(self.accesses.missing())
            .collect()
    }

    /// The refusals of read and write, of verify, work_out and run on the box, and of these by other limits.
    fn answers(&self) -> [&Counts; 8] {
        [
            &self.read,
            &self.writings.refusals,
            &self.verify,
            &self.work_out,
            &self.run,
            &self.limitings.verify,
            &self.limitings.work_out,
            &self.limitings.run,
        ]
    }

    /// How often each of them answered a refusal.
    fn refusals(&self, number: u32) -> [u64; 8] {
        self.answers().map(|counts| counts.of(number))
    }

    /// The refusals that have a name or occurred, and 0.
    fn refusal_numbers(&self) -> BTreeSet<u32> {
        let named = Rule::ALL.into_iter().map(Rule::number);
        let occurred = self.answers().map(Counts::numbers);
        let occurred = occurred.into_iter().flatten();
        named.chain(occurred).chain([0]).collect()
    }

    /// The endings that have a name or occurred.
    fn ending_numbers(&self) -> BTreeSet<u32> {
        let named = Ending::ALL.into_iter().map(Ending::number);
        named.chain(self.endings.numbers()).collect()
    }

    fn write_modules(&self, out: &mut fmt::Formatter<'_>) -> fmt::Result {
        let modules: u64 = self.modules.iter().map(|(made, _)| made).sum();
        writeln!(out, "{modules} modules, read and verified by both:")?;
        for (origin, (made, accepted)) in Origin::ALL.into_iter().zip(self.modules) {
            let origin = origin.name();
            writeln!(out, "  {origin:<12} {made:>9}, accepted {accepted:>9}")?;
        }
        Ok(())
    }

    fn write_lists(&self, out: &mut fmt::Formatter<'_>) -> fmt::Result {
        let Tally {
            lists,
            calls,
            safe_calls,
            steps,
            longest_run,
            long_budgets,
            ..
        } = self;
        write!(out, "{lists} lists of runs, {calls} calls, ")?;
        writeln!(
            out,
            "{steps} steps on each side, at most {longest_run} in one call;"
        )?;
        writeln!(
            out,
            "  {long_budgets} calls that would end otherwise with their budget cut to 32 bits;"
        )?;
        writeln!(
            out,
            "  {safe_calls} calls of accepted modules begun at an indirect target, none violated"
        )
    }

    fn write_refusals(&self, out: &mut fmt::Formatter<'_>) -> fmt::Result {
        let box_and_others = format!("{:^29} {:^29}", "on the box", "by other limits");
        writeln!(
            out,
            "{:<34} {:>9} {:>9} {box_and_others}",
            "refusals", "", ""
        )?;
        write!(out, "{:<34}", "")?;
        let judging = ["verify", "work out", "run"];
        for call in ["read", "write"].into_iter().chain([judging; 2].concat()) {
            write!(out, " {call:>9}")?;
        }
        writeln!(out)?;
        for number in self.refusal_numbers() {
            write!(out, "  {number:>2} {:<29}", refusal_name(number))?;
            for times in self.refusals(number) {
                write!(out, " {times:>9}")?;
            }
            writeln!(out)?;
        }
        Ok(())
    }

    fn write_endings(&self, out: &mut fmt::Formatter<'_>) -> fmt::Result {
        writeln!(out, "endings")?;
        for number in self.ending_numbers() {
            let (name, times) = (ending_name(number), self.endings.of(number));
            writeln!(out, "  {number:>2} {name:<29} {times:>9}")?;
        }
        Ok(())
    }
}

fn number(refused: Option<Refused>) -> u32 {
    refused.map_or(0, |(number, _)| number)
}

fn refusal_name(number: u32) -> String {
    match Rule::from_number(number) {
        Some(rule) => rule.to_string(),
        None if number == 0 => "none".into(),
        None => "without a name".into(),
    }
}

fn ending_name(number: u32) -> String {
    let ending = Ending::from_number(number);
    ending.map_or("without a name".into(), |ending| ending.to_string())
}

impl fmt::Display for Tally {
    fn fmt(&self, out: &mut fmt::Formatter<'_>) -> fmt::Result {
        self.write_modules(out)?;
        self.turns.fmt(out)?;
        self.signed.write_modules(out)?;
        self.workings.fmt(out)?;
        self.writings.fmt(out)?;
        self.shapes.fmt(out)?;
        self.lookups.fmt(out)?;
        self.limitings.fmt(out)?;
        self.write_lists(out)?;
        self.signed.write_runs(out)?;
        self.accesses.fmt(out)?;
        self.write_refusals(out)?;
        self.write_endings(out)
    }
}
