//! What modules, and calls of them, show by limits.

use modules::encode::code_bounds;
use sides::{Limits, Refused};
use std::fmt;

/// What is over the plate's limits.
#[derive(Clone, Copy, PartialEq, Eq, PartialOrd, Ord)]
pub enum Excess {
    Instructions,
    Targets,
    Both,
}

impl Excess {
    fn of([instructions, targets]: [u32; 2]) -> Option<Excess> {
        let plate = Limits::PLATE;
        match (instructions > plate.instructions, targets > plate.targets) {
            (true, true) => Some(Excess::Both),
            (true, false) => Some(Excess::Instructions),
            (false, true) => Some(Excess::Targets),
            (false, false) => None,
        }
    }
}

#[derive(Clone, Copy, PartialEq, Eq, PartialOrd, Ord)]
pub enum Call {
    Verify,
    WorkOut,
    Run,
    Step,
}

impl Call {
    fn name(self) -> &'static str {
        match self {
            Call::Verify => "verify",
            Call::WorkOut => "work out",
            Call::Run => "run",
            Call::Step => "step",
        }
    }
}

/// A number is that of the box's refusal, or 0.
#[derive(Clone, Copy, PartialEq, Eq, PartialOrd, Ord)]
pub enum Kind {
    /// A readable module that is over the plate.
    Over(Excess),
    /// 17 on the plate.
    Instead(Call, u32),
    /// 17 where claims are worked out, though `verify` answers 7.
    CrossedClaim,
    /// The file's own rule comes first, though it is over the plate.
    First(Call, u32),
    /// Within the plate's limits, and the same on both.
    Alike(Call, u32),
    /// A readable module with just so many.
    Instructions(u32),
    Targets(u32),
    /// A readable module by limits that differ so from its own counts.
    Beside(i32, i32),
    /// A readable module by limits of any numbers.
    Any,
    /// A call by such limits, refused by 17 or as on the box.
    CallBeside {
        over: bool,
    },
}

impl Kind {
    /// What a call of a file shows on the plate. Refusals 1 to 3 leave its counts open.
    pub fn on_plate<T>(call: Call, file: &[u8], on_box: Result<T, Refused>) -> Option<Kind> {
        let number = number(on_box);
        if matches!(number, 1..=3) {
            return None;
        }
        match (number, Excess::of(counts(file))) {
            (4..=7, None) => None,
            (4..=7, Some(_)) => Some(Kind::First(call, number)),
            (_, None) => Some(Kind::Alike(call, number)),
            (_, Some(_)) => Some(Kind::Instead(call, number)),
        }
    }

    /// What a readable module's counts show.
    pub fn of_counts([instructions, targets]: [u32; 2]) -> impl Iterator<Item = Kind> {
        let excess = Excess::of([instructions, targets]);
        let code = [512, 513].contains(&instructions);
        let code = code.then_some(Kind::Instructions(instructions));
        let listed = [32, 33].contains(&targets);
        let listed = listed.then_some(Kind::Targets(targets));
        excess.map(Kind::Over).into_iter().chain(code).chain(listed)
    }

    /// All that must occur.
    pub fn wanted() -> impl Iterator<Item = Kind> {
        let of = |call, numbers: &'static [u32]| numbers.iter().map(move |&number| (call, number));
        let judged = of(Call::Verify, &[0, 8, 9, 10, 11, 12, 13])
            .chain(of(Call::WorkOut, &[0, 8, 9, 10, 12, 13]))
            .chain(of(Call::Run, &[0, 14, 15]))
            .chain(of(Call::Step, &[0, 14, 15]));
        let judged = judged
            .flat_map(|(call, number)| [Kind::Instead(call, number), Kind::Alike(call, number)]);
        let first = [Call::Verify, Call::WorkOut, Call::Run].into_iter();
        let first = first.flat_map(|call| [4, 5, 6, 7].map(|number| Kind::First(call, number)));
        let beside = [-1, 0, 1].into_iter();
        let beside = beside.flat_map(|by| [-1, 0, 1].map(|and_by| Kind::Beside(by, and_by)));
        let others = [
            Kind::Over(Excess::Instructions),
            Kind::Over(Excess::Targets),
            Kind::Over(Excess::Both),
            Kind::CrossedClaim,
            Kind::Instructions(512),
            Kind::Instructions(513),
            Kind::Targets(32),
            Kind::Targets(33),
            Kind::Any,
            Kind::CallBeside { over: true },
            Kind::CallBeside { over: false },
        ];
        judged.chain(first).chain(beside).chain(others)
    }
}

impl fmt::Display for Kind {
    fn fmt(&self, out: &mut fmt::Formatter<'_>) -> fmt::Result {
        let text = match *self {
            Kind::Over(Excess::Instructions) => "over by instructions".into(),
            Kind::Over(Excess::Targets) => "over by targets".into(),
            Kind::Over(Excess::Both) => "over by both".into(),
            Kind::Instead(call, 0) => format!("{}: 17, on the box not", call.name()),
            Kind::Instead(call, number) => format!("{}: 17, on the box {number}", call.name()),
            Kind::CrossedClaim => "work out: 17, by verify 7".into(),
            Kind::First(call, number) => format!("{}: {number}, though over", call.name()),
            Kind::Alike(call, 0) => format!("{}: on both not refused", call.name()),
            Kind::Alike(call, number) => format!("{}: on both {number}", call.name()),
            Kind::Instructions(count) => format!("{count} instructions"),
            Kind::Targets(count) => format!("{count} targets"),
            Kind::Beside(by, and_by) => {
                format!("limits {}, {}", beside("n", by), beside("k", and_by))
            }
            Kind::Any => "limits of any numbers".into(),
            Kind::CallBeside { over: true } => "run by such limits: 17".into(),
            Kind::CallBeside { over: false } => "run by such limits: the same".into(),
        };
        out.pad(&text)
    }
}

fn beside(count: &str, by: i32) -> String {
    match by {
        0 => count.into(),
        by if by < 0 => format!("{count} - {}", -by),
        by => format!("{count} + {by}"),
    }
}

/// The number of a refusal, or 0.
pub fn number<T>(answer: Result<T, Refused>) -> u32 {
    answer.err().map_or(0, |(number, _)| number)
}

/// The counts that the lengths of a file's fields say, where no rule before 4 refuses it.
pub fn counts(file: &[u8]) -> [u32; 2] {
    let code = code_bounds(file);
    let third = code.end;
    let targets = u16::from_le_bytes([file[third + 1], file[third + 2]]);
    [code.len() as u32 / 8, u32::from(targets) / 68]
}
