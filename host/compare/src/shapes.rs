//! How the targets of accepted modules stand in groups of 64 instructions, by which document 02's ticket 7 has them
//! found.

use crate::by_origin::ByOrigin;
use modules::encode::{code_bounds, target_bounds};
use modules::generate::Origin;
use std::fmt;

#[derive(Clone, Copy, PartialEq, Eq, PartialOrd, Ord)]
enum Shape {
    /// So many targets or more.
    Many(usize),
    /// One is a group's last, and the next the following group's first.
    BothSides,
    Last,
    FullGroup,
    EmptyGroup,
    WholeGroups,
    PartOfGroup,
}

impl fmt::Display for Shape {
    fn fmt(&self, out: &mut fmt::Formatter<'_>) -> fmt::Result {
        let text = match self {
            Shape::Many(256) => "256 targets".into(),
            Shape::Many(least) => format!("{least} targets or more"),
            Shape::BothSides => "on both sides of an edge".into(),
            Shape::Last => "at the last instruction".into(),
            Shape::FullGroup => "a full group".into(),
            Shape::EmptyGroup => "an empty group between".into(),
            Shape::WholeGroups => "n a multiple of 64".into(),
            Shape::PartOfGroup => "n not a multiple of 64".into(),
        };
        out.pad(&text)
    }
}

/// All of them must occur.
const SHAPES: [Shape; 9] = [
    Shape::Many(64),
    Shape::Many(200),
    Shape::Many(256),
    Shape::BothSides,
    Shape::Last,
    Shape::FullGroup,
    Shape::EmptyGroup,
    Shape::WholeGroups,
    Shape::PartOfGroup,
];

impl Shape {
    /// Whether targets at these indexes stand so among so many instructions.
    fn is_of(self, indexes: &[usize], instructions: usize) -> bool {
        let mut pairs = indexes.windows(2);
        match self {
            Shape::Many(least) => indexes.len() >= least,
            Shape::BothSides => pairs.any(|pair| pair[1] % 64 == 0 && pair[0] + 1 == pair[1]),
            Shape::Last => indexes.last() == Some(&(instructions - 1)),
            Shape::FullGroup => {
                let mut runs = indexes.windows(64);
                runs.any(|run| run[0] % 64 == 0 && run[63] == run[0] + 63)
            }
            Shape::EmptyGroup => pairs.any(|pair| pair[1] / 64 > pair[0] / 64 + 1),
            Shape::WholeGroups => instructions.is_multiple_of(64),
            Shape::PartOfGroup => !instructions.is_multiple_of(64),
        }
    }
}

/// The indexes of a readable file's targets.
fn indexes(file: &[u8]) -> Vec<usize> {
    let targets = file[target_bounds(file)].as_chunks::<68>().0.iter();
    targets
        .map(|target| usize::from(u16::from_le_bytes([target[0], target[1]])))
        .collect()
}

/// How often each shape occurred.
#[derive(Default)]
pub struct Shapes(ByOrigin<Shape>);

impl Shapes {
    /// Counts those of an accepted file.
    pub fn count(&mut self, origin: Origin, file: &[u8]) {
        let (indexes, instructions) = (indexes(file), code_bounds(file).len() / 8);
        for shape in SHAPES {
            if shape.is_of(&indexes, instructions) {
                self.0.count(shape, origin);
            }
        }
    }

    /// Those that never occurred.
    pub fn missing(&self) -> impl Iterator<Item = String> + '_ {
        let missing = SHAPES.into_iter().filter(|shape| !self.0.has(shape));
        missing.map(|shape| format!("{shape} (targets)"))
    }
}

impl fmt::Display for Shapes {
    fn fmt(&self, out: &mut fmt::Formatter<'_>) -> fmt::Result {
        writeln!(
            out,
            "How the targets of accepted modules stand in groups of 64 instructions, of which there are n."
        )?;
        self.0.fmt(out)
    }
}
