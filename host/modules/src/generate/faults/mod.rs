//! Faults of tables that are to be written, and of the buffer for their file: each breaks one rule, whatever else is
//! wrong.

mod layout;
mod rows;

use crate::encode::{Layout, ANYTHING, INDIRECT};
use crate::random::Random;
use crate::tables::{InstructionRow, Tables, TargetRow};

/// What can be wrong, in the order in which the writer judges.
#[derive(Clone, Copy, Debug, PartialEq, Eq, PartialOrd, Ord)]
pub enum Part {
    InstructionCount,
    TargetCount,
    Layout,
    Instructions,
    Targets,
    Buffer,
}

impl Part {
    pub const ALL: [Part; 6] = [
        Part::InstructionCount,
        Part::TargetCount,
        Part::Layout,
        Part::Instructions,
        Part::Targets,
        Part::Buffer,
    ];

    /// The refusal's number.
    pub fn number(self) -> u32 {
        match self {
            Part::InstructionCount | Part::TargetCount => 3,
            Part::Layout => 5,
            Part::Instructions => 6,
            Part::Targets => 7,
            Part::Buffer => 16,
        }
    }

    /// The names of its faults.
    pub fn fault_names(self) -> Vec<&'static str> {
        match self {
            Part::InstructionCount => names(INSTRUCTION_COUNTS),
            Part::TargetCount => names(TARGET_COUNTS),
            Part::Layout => names(layout::BREAKS),
            Part::Instructions => names(rows::INSTRUCTION_BREAKS),
            Part::Targets => names(rows::TARGET_BREAKS),
            Part::Buffer => names(BUFFERS),
        }
    }
}

type Named<T> = (&'static str, T);

fn names<T>(faults: &[Named<T>]) -> Vec<&'static str> {
    faults.iter().map(|(name, _)| *name).collect()
}

/// One part made bad.
pub struct Fault {
    pub part: Part,
    pub name: &'static str,
    bad: Bad,
}

enum Bad {
    Layout(Layout),
    Instructions(Vec<InstructionRow>),
    Targets(Vec<TargetRow>),
    /// So many rows: the first, or more after them.
    Count(usize),
    /// A buffer of so many bytes.
    Buffer(usize),
}

/// 8,193 instructions have 65,544 bytes, of which 16 bits hold the length of one instruction.
const INSTRUCTION_COUNTS: &[Named<usize>] = &[
    ("no instructions", 0),
    ("4,097 instructions", 4097),
    ("8,193 instructions", 8193),
];

const TARGET_COUNTS: &[Named<usize>] = &[("no targets", 0), ("257 targets", 257)];

/// Of the length of a file, a smaller one.
type Shorter = fn(&mut Random, usize) -> usize;

const BUFFERS: &[Named<Shorter>] = &[
    ("one byte too few", |_, length| length - 1),
    ("more bytes too few", |random, length| {
        1 + random.below(length - 2)
    }),
    ("an empty buffer", |_, _| 0),
];

/// Makes a part bad, if these tables allow it.
type Break = fn(&mut Random, &mut Tables) -> bool;

/// Some faults of good tables whose file has so many bytes, in the order of their parts: mostly one.
pub fn faults(random: &mut Random, good: &Tables, length: usize) -> Vec<Fault> {
    let several = random.chance(25);
    let one = random.pick(&Part::ALL);
    let mut faults = Vec::new();
    for part in Part::ALL {
        if part == one || several && random.chance(50) {
            faults.push(fault(random, part, good, length));
        }
    }
    faults
}

fn fault(random: &mut Random, part: Part, good: &Tables, length: usize) -> Fault {
    let (name, bad) = match part {
        Part::InstructionCount => count(random, INSTRUCTION_COUNTS),
        Part::TargetCount => count(random, TARGET_COUNTS),
        Part::Layout => {
            let (name, tables) = broken(random, layout::BREAKS, good);
            (name, Bad::Layout(tables.layout))
        }
        Part::Instructions => {
            let (name, mut tables) = broken(random, rows::INSTRUCTION_BREAKS, good);
            break_another(random, rows::INSTRUCTION_BREAKS, &mut tables);
            (name, Bad::Instructions(tables.instructions))
        }
        Part::Targets => {
            let (name, mut tables) = broken(random, rows::TARGET_BREAKS, good);
            break_another(random, rows::TARGET_BREAKS, &mut tables);
            (name, Bad::Targets(tables.targets))
        }
        Part::Buffer => {
            let (name, shorter) = random.pick(BUFFERS);
            (name, Bad::Buffer(shorter(random, length)))
        }
    };
    Fault { part, name, bad }
}

fn count(random: &mut Random, counts: &[Named<usize>]) -> Named<Bad> {
    let (name, count) = random.pick(counts);
    (name, Bad::Count(count))
}

fn broken(random: &mut Random, breaks: &[Named<Break>], good: &Tables) -> Named<Tables> {
    let mut tables = good.clone();
    loop {
        let (name, make) = random.pick(breaks);
        if make(random, &mut tables) {
            return (name, tables);
        }
    }
}

/// Now and then a second row is bad, before the first or behind it.
fn break_another(random: &mut Random, breaks: &[Named<Break>], tables: &mut Tables) {
    if random.chance(15) {
        let (_, make) = random.pick(breaks);
        make(random, tables);
    }
}

/// The tables with these faults, and the length of the buffer if that is one.
pub fn with_faults(good: &Tables, faults: &[Fault]) -> (Tables, Option<usize>) {
    let mut tables = good.clone();
    let mut length = None;
    // Counts last, so that bad rows are there too unless there are none at all.
    for Fault { part, bad, .. } in faults.iter().rev() {
        match bad {
            Bad::Layout(layout) => tables.layout = *layout,
            Bad::Instructions(rows) => tables.instructions.clone_from(rows),
            Bad::Targets(rows) => tables.targets.clone_from(rows),
            Bad::Count(count) if *part == Part::InstructionCount => {
                tables
                    .instructions
                    .resize(*count, InstructionRow::default());
            }
            Bad::Count(count) => tables.targets.resize(*count, another_target()),
            Bad::Buffer(bytes) => length = Some(*bytes),
        }
    }
    (tables, length)
}

fn another_target() -> TargetRow {
    TargetRow {
        index: 0,
        kind: INDIRECT.into(),
        claim: [ANYTHING; 8],
    }
}
