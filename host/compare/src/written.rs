//! What document 02's ticket 5 is compared on: tables of readable files, which must be written as these very files, and
//! the same tables with faults, which are mended one by one in the order of the rules.

use crate::by_origin::ByOrigin;
use crate::counts::Counts;
use crate::files::same;
use modules::generate::{faults, with_faults, Fault, Origin, Part};
use modules::random::Random;
use modules::tables::Tables;
use sides::{Read, Side};
use std::fmt;

/// What tables and a buffer show.
#[derive(Clone, Copy, PartialEq, Eq, PartialOrd, Ord)]
enum Kind {
    /// Written as the file that was read, into a buffer of this kind.
    Written(&'static str),
    /// Of a file that is refused with this number, and refused with it.
    AsItsFile(u32),
    /// Refused by this fault.
    Faulty(Part, &'static str),
    /// Refused by the first, though the second is there too.
    Before(Part, Part),
}

const EXACT: &str = "just as long";
const LONGER: &str = "longer";

impl fmt::Display for Kind {
    fn fmt(&self, out: &mut fmt::Formatter<'_>) -> fmt::Result {
        let text = match self {
            Kind::Written(buffer) => format!("written, buffer {buffer}"),
            Kind::AsItsFile(number) => format!("refused {number}, as its file"),
            Kind::Faulty(part, name) => format!("{}: {name}", part.number()),
            Kind::Before(one, other) => format!("{} before {}", rule(*one), rule(*other)),
        };
        out.pad(&text)
    }
}

fn rule(part: Part) -> String {
    match part {
        Part::InstructionCount => "3 at 15".into(),
        Part::TargetCount => "3 at 18 + 8n".into(),
        _ => part.number().to_string(),
    }
}

/// Every kind there is.
fn wanted() -> impl Iterator<Item = Kind> {
    let written = [EXACT, LONGER].into_iter().map(Kind::Written);
    let as_its_file = [5, 6, 7].into_iter().map(Kind::AsItsFile);
    let parts = Part::ALL.into_iter();
    let faulty = parts.flat_map(|part| {
        let names = part.fault_names().into_iter();
        names.map(move |name| Kind::Faulty(part, name))
    });
    let pairs = Part::ALL.into_iter().flat_map(|one| {
        let later = Part::ALL.into_iter().filter(move |other| one < *other);
        later.map(move |other| Kind::Before(one, other))
    });
    written.chain(as_its_file).chain(faulty).chain(pairs)
}

/// A refusal's number and place, or the file's length.
type Answer = sides::Written;

/// What a file's tables show of the ticket.
#[derive(Default)]
pub struct Written {
    kinds: Vec<Kind>,
    answers: Vec<Answer>,
}

impl Written {
    /// Writes the tables of a file on which `read` answers this, and looks whether all is as promised. A file whose
    /// fields are not whole has none.
    pub fn of(file: &[u8], read: Read, random: &mut Random) -> Result<Written, String> {
        let mut written = Written::default();
        match read {
            Err((0..=4, _)) => {}
            Err(refused) => written.as_its_file(file, refused)?,
            Ok(_) => {
                let good = Tables::decode(file);
                written.as_it_was(&good, file, random)?;
                let faults = faults(random, &good, file.len());
                written.mended_one_by_one(&good, file.len(), &faults)?;
            }
        }
        Ok(written)
    }

    /// How many kinds it shows.
    pub fn kinds(&self) -> usize {
        self.kinds.len()
    }

    /// The tables of a file that `read` refuses by 5, 6 or 7. Where it does so by a target's zero byte, which is not in
    /// them, they may be written.
    fn as_its_file(&mut self, file: &[u8], refused: (u32, u32)) -> Result<(), String> {
        let tables = Tables::decode(file);
        let answer = self.by_both(&tables, file.len())?;
        if answer == Err(refused) {
            self.kinds.push(Kind::AsItsFile(refused.0));
        }
        Ok(())
    }

    /// Written as the very file that was read.
    fn as_it_was(&mut self, good: &Tables, file: &[u8], random: &mut Random) -> Result<(), String> {
        if good.narrowed().to_bytes() != file {
            return Err("the tables are not those of the file".into());
        }
        let more = random.pick(&[0, 0, 1, 7, 300]);
        let answer = self.by_both(good, file.len() + more)?;
        if answer != Ok(file.len() as u32) {
            return Err(format!("write: {answer:?} of what was read"));
        }
        let buffer = if more == 0 { EXACT } else { LONGER };
        self.kinds.push(Kind::Written(buffer));
        Ok(())
    }

    /// Tables with some faults are refused by the first; without it, by the next.
    fn mended_one_by_one(
        &mut self,
        good: &Tables,
        enough: usize,
        faults: &[Fault],
    ) -> Result<(), String> {
        for (number, fault) in faults.iter().enumerate() {
            let left = &faults[number..];
            let (tables, length) = with_faults(good, left);
            let answer = self.by_both(&tables, length.unwrap_or(enough))?;
            if answer.err().map(|(number, _)| number) != Some(fault.part.number()) {
                let name = fault.name;
                return Err(format!("write: {answer:?} with {name}\n{tables:?}"));
            }
            self.kinds.push(Kind::Faulty(fault.part, fault.name));
            let later = left[1..].iter().map(|later| later.part);
            let later = later.filter(|&part| has_rows(&tables, part));
            self.kinds
                .extend(later.map(|later| Kind::Before(fault.part, later)));
        }
        Ok(())
    }

    /// Both sides write the tables into a buffer of so many bytes as is due, and leave all bytes that are not due.
    fn by_both(&mut self, tables: &Tables, length: usize) -> Result<Answer, String> {
        let file = tables.narrowed().to_bytes();
        let due = due(tables, &file, length)?;
        let before = bytes_around(&file, length);
        let mut after = before.clone();
        if due.is_ok() {
            after[AROUND..AROUND + file.len()].copy_from_slice(&file);
        }
        let lent = sides::Tables::new(tables);
        for side in Side::BOTH {
            let name = side.name();
            let mut bytes = before.clone();
            let answer = side.write(&lent, &mut bytes[AROUND..AROUND + length]);
            if answer != due {
                return Err(format!(
                    "write, {name}: {answer:?} and not {due:?}\n{tables:?}"
                ));
            }
            let mut bytes = bytes.iter().zip(&after);
            if let Some(at) = bytes.position(|(one, other)| one != other) {
                let at = at as isize - AROUND as isize;
                return Err(format!(
                    "write, {name}: {due:?}, but byte {at} is wrong\n{tables:?}"
                ));
            }
        }
        self.answers.push(due);
        Ok(due)
    }
}

/// Whether there is a row that can be wrong, where rows are what can be.
fn has_rows(tables: &Tables, part: Part) -> bool {
    match part {
        Part::Instructions => !tables.instructions.is_empty(),
        Part::Targets => !tables.targets.is_empty(),
        _ => true,
    }
}

/// Bytes on either side of the buffer. An odd number, so that it begins at no word.
const AROUND: usize = 9;

/// A buffer in which every byte differs from the file's at its place, with bytes around it.
fn bytes_around(file: &[u8], length: usize) -> Vec<u8> {
    let other = (0..length).map(|at| match file.get(at) {
        Some(byte) => !byte,
        None => (at * 37) as u8,
    });
    let around = [0xA5; AROUND].into_iter();
    around.clone().chain(other).chain(around).collect()
}

/// What is to be answered: by the counts, by what `read` says of the file with these tables, and by its length.
fn due(tables: &Tables, file: &[u8], length: usize) -> Result<Answer, String> {
    let instructions = tables.instructions.len();
    if !(1..=4096).contains(&instructions) {
        return Ok(Err((3, 15)));
    }
    if !(1..=256).contains(&tables.targets.len()) {
        return Ok(Err((3, 18 + 8 * instructions as u32)));
    }
    let read = same("read", Side::BOTH.map(|side| side.read(file)))?;
    Ok(match read {
        Err(refused) => Err(refused),
        Ok(_) if length < file.len() => Err((16, 0)),
        Ok(_) => Ok(file.len() as u32),
    })
}

/// How often each kind occurred, and each answer's number.
#[derive(Default)]
pub struct Writings {
    kinds: ByOrigin<Kind>,
    pub refusals: Counts,
    tables: u64,
}

impl Writings {
    pub fn count(&mut self, origin: Origin, written: &Written) {
        for &kind in &written.kinds {
            self.kinds.count(kind, origin);
        }
        for answer in &written.answers {
            self.tables += 1;
            let number = answer.err().map_or(0, |(number, _)| number);
            self.refusals.count(number);
        }
    }

    /// The wanted kinds that never occurred.
    pub fn missing(&self) -> impl Iterator<Item = String> + '_ {
        let missing = wanted().filter(|kind| !self.kinds.has(kind));
        missing.map(|kind| format!("{kind} (tables written)"))
    }
}

impl fmt::Display for Writings {
    fn fmt(&self, out: &mut fmt::Formatter<'_>) -> fmt::Result {
        let Writings { kinds, tables, .. } = self;
        writeln!(
            out,
            "{tables} sets of tables written by both, or refused as their file is and with the buffer left alone."
        )?;
        writeln!(
            out,
            "By how the modules were made; a number and a fault: refused so, with this wrong in tables or buffer."
        )?;
        kinds.fmt(out)
    }
}
