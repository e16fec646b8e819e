//! Why a module, a run or a set of tables is refused.

use core::error::Error;
use core::fmt;

/// A rule that a refused module, run or set of tables breaks. The numbers and words are those of document 01's table
/// and, from 16 on, of document 02.
#[derive(Clone, Copy, Debug, PartialEq, Eq, PartialOrd, Ord, Hash)]
#[repr(u32)]
pub enum Rule {
    /// 1, "short": the bytes end inside a field's header or value. The place is the field's offset.
    Truncated = 1,
    /// 2, "wrong tag": not the tag that is due. The place is the field's offset.
    WrongTag = 2,
    /// 3, "bad length": a length that is not listed for the field; of tables, too few or too many instructions or
    /// targets. The place is the field's offset, or the one that it would have.
    BadLength = 3,
    /// 4, "tail": bytes after the third field. The place is the offset of the first.
    TrailingBytes = 4,
    /// 5, "bad layout": base, size and guard do not fit together. The place is 0.
    BadLayout = 5,
    /// 6, "bad instruction": an opcode above 15, an operand out of range, or an unused byte that is not zero.
    /// The place is the instruction's index.
    BadInstruction = 6,
    /// 7, "bad door": a target that is not as listed. The place is the target's number, counted from 0.
    BadTarget = 7,
    /// 8, "no door": a jump or branch goes to what is no target. The place is the instruction's index.
    NoTarget = 8,
    /// 9, "unchecked jump": a `jumpr` without a check of its register just before it, or itself a target.
    /// The place is the instruction's index.
    UncheckedJump = 9,
    /// 10, "wild access": a load or store may reach outside the region and its guard zones.
    /// The place is the instruction's index.
    WildAccess = 10,
    /// 11, "broken claim": the ranges on an edge to a target do not lie within its claim.
    /// The place is the index that the edge leaves.
    BrokenClaim = 11,
    /// 12, "no way in": no target, and the instruction before it never goes on to it.
    /// The place is the instruction's index.
    Unreachable = 12,
    /// 13, "runs off": the last instruction is no halt, jump or `jumpr`. The place is its index.
    FallsOff = 13,
    /// 14, "bad place": the machine's pc is no instruction's index. The place is 0.
    BadPc = 14,
    /// 15, "no ground": offset + size exceeds the lent memory. The place is 0.
    NoRoom = 15,
    /// 16, "no space": a file is longer than the buffer that it is to be written into. The place is 0.
    NoSpace = 16,
    /// 17, "over plate": more instructions or more targets than the device's [`Limits`](crate::Limits) say. It comes
    /// after 1 to 7 and before all others. The place is 0.
    OverPlate = 17,
}

impl Rule {
    /// All rules, by number.
    pub const ALL: [Rule; 17] = [
        Rule::Truncated,
        Rule::WrongTag,
        Rule::BadLength,
        Rule::TrailingBytes,
        Rule::BadLayout,
        Rule::BadInstruction,
        Rule::BadTarget,
        Rule::NoTarget,
        Rule::UncheckedJump,
        Rule::WildAccess,
        Rule::BrokenClaim,
        Rule::Unreachable,
        Rule::FallsOff,
        Rule::BadPc,
        Rule::NoRoom,
        Rule::NoSpace,
        Rule::OverPlate,
    ];

    /// The rule's number in the documents, 1 to 17.
    pub fn number(self) -> u32 {
        self as u32
    }

    /// The rule with a number, if there is one.
    pub fn from_number(number: u32) -> Option<Rule> {
        let index = usize::try_from(number.checked_sub(1)?).ok()?;
        Rule::ALL.get(index).copied()
    }

    /// The rule's name in the field's terms.
    pub fn name(self) -> &'static str {
        match self {
            Rule::Truncated => "truncated",
            Rule::WrongTag => "wrong tag",
            Rule::BadLength => "bad length",
            Rule::TrailingBytes => "trailing bytes",
            Rule::BadLayout => "bad layout",
            Rule::BadInstruction => "bad instruction",
            Rule::BadTarget => "bad target",
            Rule::NoTarget => "no target",
            Rule::UncheckedJump => "unchecked jump",
            Rule::WildAccess => "wild access",
            Rule::BrokenClaim => "broken claim",
            Rule::Unreachable => "unreachable",
            Rule::FallsOff => "falls off",
            Rule::BadPc => "bad pc",
            Rule::NoRoom => "no room",
            Rule::NoSpace => "no space",
            Rule::OverPlate => "over plate",
        }
    }

    /// The documents' word for the rule.
    pub fn word(self) -> &'static str {
        match self {
            Rule::Truncated => "short",
            Rule::TrailingBytes => "tail",
            Rule::BadTarget => "bad door",
            Rule::NoTarget => "no door",
            Rule::Unreachable => "no way in",
            Rule::FallsOff => "runs off",
            Rule::BadPc => "bad place",
            Rule::NoRoom => "no ground",
            same => same.name(),
        }
    }
}

impl fmt::Display for Rule {
    fn fmt(&self, out: &mut fmt::Formatter<'_>) -> fmt::Result {
        if self.name() == self.word() {
            write!(out, "{}", self.name())
        } else {
            write!(out, "{} ({})", self.name(), self.word())
        }
    }
}

/// A refusal: the first rule broken, in the documents' order, and where.
#[derive(Clone, Copy, Debug, PartialEq, Eq, Hash)]
pub struct Refusal {
    /// The rule that is broken.
    pub rule: Rule,
    /// An offset into the file, the index of an instruction or the number of a target; each [`Rule`] says which.
    pub place: u32,
}

impl fmt::Display for Refusal {
    fn fmt(&self, out: &mut fmt::Formatter<'_>) -> fmt::Result {
        let (number, place) = (self.rule.number(), self.place);
        write!(out, "refused {number} {place}: {}", self.rule)
    }
}

impl Error for Refusal {}
