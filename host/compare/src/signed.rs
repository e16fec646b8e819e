//! What document 02's ticket 2 is compared on: loads of width 129 and 130, these widths and those beside them where
//! they are bad, and runs in which a sign is carried up.

use crate::by_origin::ByOrigin;
use crate::counts::Counts;
use modules::encode::{code_bounds, op, SIGN};
use modules::generate::Origin;
use sides::{Limits, Side, Verdict};
use std::fmt;

/// The widths that carry the sign up.
const WIDTHS: [u8; 2] = [SIGN + 1, SIGN + 2];

/// What a module shows.
#[derive(Clone, Copy, PartialEq, Eq, PartialOrd, Ord)]
enum Kind {
    /// Accepted, and has a load of this width.
    Accepted(u8),
    /// Refused by 10 at a load of this width.
    Wild(u8),
    /// Refused with this number, and accepted if the loads of this width didn't carry the sign up.
    Turned(u32, u8),
    /// Refused by 6 at such an instruction with this w.
    Bad(&'static str, u8),
}

impl fmt::Display for Kind {
    fn fmt(&self, out: &mut fmt::Formatter<'_>) -> fmt::Result {
        let text = match self {
            Kind::Accepted(width) => format!("accepted with width {width}"),
            Kind::Wild(width) => format!("refused 10 at width {width}"),
            Kind::Turned(number, width) => {
                format!("refused {number}, accepted by w {}", width - SIGN)
            }
            Kind::Bad(name, w) => format!("refused 6 at {name}, w {w}"),
        };
        out.pad(&text)
    }
}

const WANTED: [Kind; 17] = [
    Kind::Accepted(129),
    Kind::Accepted(130),
    Kind::Wild(129),
    Kind::Wild(130),
    Kind::Turned(10, 129),
    Kind::Turned(10, 130),
    Kind::Turned(11, 129),
    Kind::Turned(11, 130),
    Kind::Bad("a load", 128),
    Kind::Bad("a load", 131),
    Kind::Bad("a load", 132),
    Kind::Bad("a store", 129),
    Kind::Bad("a store", 130),
    Kind::Bad("a branch", 129),
    Kind::Bad("a branch", 130),
    Kind::Bad("a shift", 129),
    Kind::Bad("a shift", 130),
];

type Bytes = [u8; 8];

/// The instructions of a file that no rule before 6 refuses.
fn code(file: &[u8]) -> &[Bytes] {
    file[code_bounds(file)].as_chunks().0
}

fn is_load(instruction: &Bytes, width: u8) -> bool {
    let [opcode, _, _, w, ..] = *instruction;
    (opcode, w) == (op::LOAD, width)
}

/// Each width that carries the sign up and that a load of the file has, and the file with these loads not doing so. The
/// file is one that no rule before 7 refuses.
pub fn without_sign(file: &[u8]) -> impl Iterator<Item = (u8, Vec<u8>)> + '_ {
    let widths = WIDTHS.into_iter();
    let loaded = widths.filter(|&width| code(file).iter().any(|one| is_load(one, width)));
    loaded.map(|width| {
        let mut changed = file.to_vec();
        for instruction in changed[code_bounds(file)].as_chunks_mut().0 {
            if is_load(instruction, width) {
                instruction[3] -= SIGN;
            }
        }
        (width, changed)
    })
}

/// What a file shows of the ticket.
#[derive(Default)]
pub struct Seen {
    kinds: Vec<Kind>,
    /// How many loads carry the sign up.
    loads: u64,
}

impl Seen {
    pub fn of(file: &[u8], verified: Verdict) -> Seen {
        match verified {
            Err((0..=5, _)) => Seen::default(),
            Err((6, place)) => Seen {
                kinds: bad(&code(file)[place as usize]).into_iter().collect(),
                loads: 0,
            },
            _ => Seen::of_readable(file, verified),
        }
    }

    fn of_readable(file: &[u8], verified: Verdict) -> Seen {
        let code = code(file);
        let mut kinds = Vec::new();
        for (width, changed) in without_sign(file) {
            match verified {
                Ok(_) => kinds.push(Kind::Accepted(width)),
                Err((number, place)) => {
                    if number == 10 && is_load(&code[place as usize], width) {
                        kinds.push(Kind::Wild(width));
                    }
                    if Side::HandWritten.verify(Limits::BOX, &changed).is_ok() {
                        kinds.push(Kind::Turned(number, width));
                    }
                }
            }
        }
        let is_signed = |one: &&Bytes| WIDTHS.iter().any(|&width| is_load(one, width));
        let loads = code.iter().filter(is_signed).count() as u64;
        Seen { kinds, loads }
    }

    /// Whether the file is refused because a load carries the sign up.
    pub fn is_turned(&self) -> bool {
        let mut kinds = self.kinds.iter();
        kinds.any(|kind| matches!(kind, Kind::Turned(..)))
    }
}

/// What a bad instruction shows, if it is bad by its w.
fn bad(instruction: &Bytes) -> Option<Kind> {
    let [opcode, _, _, w, ..] = *instruction;
    let name = match opcode {
        op::LOAD => "a load",
        op::STORE => "a store",
        op::BRANCH => "a branch",
        op::SHR | op::SAR => "a shift",
        _ => "another",
    };
    let beside: &[u8] = match opcode {
        op::LOAD => &[128, 131, 132],
        _ => &WIDTHS,
    };
    beside.contains(&w).then_some(Kind::Bad(name, w))
}

#[derive(Default)]
pub struct Signed {
    kinds: ByOrigin<Kind>,
    modules: u64,
    loads: u64,
    /// Runs by the width whose sign their outcome shows.
    runs: Counts,
}

impl Signed {
    pub fn count(&mut self, origin: Origin, seen: &Seen) {
        for &kind in &seen.kinds {
            self.kinds.count(kind, origin);
        }
        self.modules += u64::from(seen.loads > 0);
        self.loads += seen.loads;
    }

    pub fn count_run(&mut self, width: u8) {
        self.runs.count(width.into());
    }

    /// The wanted kinds, of modules and of runs, that never occurred.
    pub fn missing(&self) -> impl Iterator<Item = String> + '_ {
        let kinds = WANTED.into_iter().filter(|kind| !self.kinds.has(kind));
        let runs = WIDTHS.into_iter();
        let runs = runs.filter(|&width| self.runs.of(width.into()) == 0);
        kinds
            .map(|kind| kind.to_string())
            .chain(runs.map(|width| format!("a negative sample of width {width}")))
    }

    pub fn write_modules(&self, out: &mut fmt::Formatter<'_>) -> fmt::Result {
        let Signed {
            kinds,
            modules,
            loads,
            ..
        } = self;
        writeln!(
            out,
            "{modules} readable modules have loads that carry the sign up, of width 129 or 130, {loads} in all."
        )?;
        writeln!(
            out,
            "By how they were made; \"accepted by w 1\": if all loads of width 129 had width 1."
        )?;
        write!(out, "{kinds}")
    }

    pub fn write_runs(&self, out: &mut fmt::Formatter<'_>) -> fmt::Result {
        for width in WIDTHS {
            let runs = self.runs.of(width.into());
            let without = width - SIGN;
            writeln!(
                out,
                "  {runs} calls show a negative sample of width {width}: they end otherwise by width {without}"
            )?;
        }
        Ok(())
    }
}
