//! The verdicts that document 02's ticket 1 turns: another by rule N as it was. They are counted by how the modules were
//! made, since that says whose cut is empty; the verdicts don't.

use crate::by_origin::ByOrigin;
use modules::generate::Origin;
use sides::Verdict;
use std::fmt;

/// How a verdict is turned.
#[derive(Clone, Copy, Debug, PartialEq, Eq, PartialOrd, Ord)]
pub enum Turn {
    /// Accepted now, and refused with this number by the rule as it was.
    Accepted(u32),
    /// Refused now with this number, and accepted by the rule as it was.
    Refused(u32),
    /// Refused by both, with another number or place.
    Otherwise,
}

impl Turn {
    fn of(now: Verdict, earlier: Verdict) -> Option<Turn> {
        match (now, earlier) {
            _ if now == earlier => None,
            (Ok(_), Err((number, _))) => Some(Turn::Accepted(number)),
            (Err((number, _)), Ok(_)) => Some(Turn::Refused(number)),
            _ => Some(Turn::Otherwise),
        }
    }
}

impl fmt::Display for Turn {
    fn fmt(&self, out: &mut fmt::Formatter<'_>) -> fmt::Result {
        let text = match self {
            Turn::Accepted(number) => format!("accepted, earlier refused {number}"),
            Turn::Refused(number) => format!("refused {number}, earlier accepted"),
            Turn::Otherwise => "refused otherwise".into(),
        };
        out.pad(&text)
    }
}

/// What must occur: either way, by either rule, and with either rule's cut empty.
const WANTED: [(Turn, Origin); 6] = [
    (Turn::Accepted(10), Origin::Narrowed),
    (Turn::Accepted(11), Origin::Narrowed),
    (Turn::Refused(10), Origin::EmptyN),
    (Turn::Refused(11), Origin::EmptyN),
    (Turn::Refused(10), Origin::EmptyB),
    (Turn::Refused(11), Origin::EmptyB),
];

/// How often each turn occurred.
#[derive(Default)]
pub struct Turns(ByOrigin<Turn>);

impl Turns {
    pub fn count(&mut self, origin: Origin, now: Verdict, earlier: Verdict) {
        if let Some(turn) = Turn::of(now, earlier) {
            self.0.count(turn, origin);
        }
    }

    /// The wanted ones that never occurred.
    pub fn missing(&self) -> impl Iterator<Item = String> + '_ {
        let missing = WANTED.into_iter();
        let missing = missing.filter(|(turn, origin)| self.0.of(turn, *origin) == 0);
        missing.map(|(turn, origin)| format!("{turn} ({})", origin.name()))
    }
}

impl fmt::Display for Turns {
    fn fmt(&self, out: &mut fmt::Formatter<'_>) -> fmt::Result {
        let turned = self.0.all();
        writeln!(
            out,
            "{turned} modules have another verdict by rule N as it was, cutting to the region at imm 0 alone."
        )?;
        writeln!(
            out,
            "By how they were made: in \"empty N\" and \"empty B\" it is that rule's cut that is now empty."
        )?;
        self.0.fmt(out)
    }
}
