//! What document 02's ticket 7 is compared on: single jumps, branches, checks and `jumpr` to indexes of every kind, in
//! modules whose targets stand in any way in groups of 64 instructions. What each finds is told here by the plain list
//! of targets.

use crate::files::same;
use crate::worked::by_both;
use modules::assembler::{branch, check, jump, jumpr};
use modules::encode::{code_bounds, op, test, Instruction, Module, Target};
use modules::random::Random;
use sides::ending::{DENIED, OUT_OF_BUDGET, VIOLATED};
use sides::{Limits, Machine, Side};
use std::collections::{BTreeMap, BTreeSet};
use std::fmt;

/// What an index is that is looked up.
#[derive(Clone, Copy, Debug, PartialEq, Eq, PartialOrd, Ord)]
enum Index {
    Indirect,
    Direct,
    /// No target, in a group that has targets.
    Among,
    /// No target, in a group that has none.
    Apart,
    /// The number of instructions.
    End,
    /// Above that, and below 4,096.
    PastEnd,
    /// A target's and a multiple of 4,096, which in the last two is one of more bits too.
    Modulo4096,
    Modulo65536,
    HighestBit,
}

impl Index {
    const ALL: [Index; 9] = [
        Index::Indirect,
        Index::Direct,
        Index::Among,
        Index::Apart,
        Index::End,
        Index::PastEnd,
        Index::Modulo4096,
        Index::Modulo65536,
        Index::HighestBit,
    ];

    fn name(self) -> &'static str {
        match self {
            Index::Indirect => "an indirect target",
            Index::Direct => "a direct target",
            Index::Among => "none, in a group with targets",
            Index::Apart => "none, in a group without",
            Index::End => "n",
            Index::PastEnd => "above n, below 4,096",
            Index::Modulo4096 => "a target's + m * 4,096",
            Index::Modulo65536 => "a target's + m * 65,536",
            Index::HighestBit => "a target's + 2^31",
        }
    }

    /// One of this kind, if the module has any.
    fn choose(self, random: &mut Random, module: &Module) -> Option<u32> {
        let instructions = module.code.len() as u32;
        let any = u32::from(random.pick(&module.targets).index);
        let choices = match self {
            Index::Indirect => of_targets(module, true),
            Index::Direct => of_targets(module, false),
            Index::Among => of_others(module, true),
            Index::Apart => of_others(module, false),
            Index::End => vec![instructions],
            Index::PastEnd => (instructions + 1..4096).collect(),
            Index::Modulo4096 => vec![any + 4096 * (1 + random.below(15) as u32)],
            Index::Modulo65536 => vec![any + 65_536 * (1 + random.below(32_767) as u32)],
            Index::HighestBit => vec![any + (1 << 31)],
        };
        (!choices.is_empty()).then(|| random.pick(&choices))
    }
}

/// The indexes of indirect targets, or of direct ones.
fn of_targets(module: &Module, indirect: bool) -> Vec<u32> {
    let targets = module.targets.iter();
    let targets = targets.filter(|target| target.is_indirect() == indirect);
    targets.map(|target| target.index.into()).collect()
}

/// The indexes of no target, in groups that have targets, or in ones that have none.
fn of_others(module: &Module, among: bool) -> Vec<u32> {
    let targets = module.targets.iter().map(|target| target.index.into());
    let targets: BTreeSet<u32> = targets.collect();
    let groups: BTreeSet<u32> = targets.iter().map(|at| at / 64).collect();
    let others = (0..module.code.len() as u32).filter(|at| !targets.contains(at));
    others
        .filter(|at| groups.contains(&(at / 64)) == among)
        .collect()
}

/// Who looks an index up: the verifier, which asks for those that jumps and branches name, or a step.
#[derive(Clone, Copy, Debug, PartialEq, Eq, PartialOrd, Ord)]
enum Asker {
    Verifier(u8),
    Step(u8),
}

impl Asker {
    const ALL: [Asker; 6] = [
        Asker::Verifier(op::JUMP),
        Asker::Verifier(op::BRANCH),
        Asker::Step(op::JUMP),
        Asker::Step(op::BRANCH),
        Asker::Step(op::CHECK),
        Asker::Step(op::JUMPR),
    ];
}

impl fmt::Display for Asker {
    fn fmt(&self, out: &mut fmt::Formatter<'_>) -> fmt::Result {
        let text = match *self {
            Asker::Verifier(op::JUMP) => "8: jump",
            Asker::Verifier(_) => "8: branch",
            Asker::Step(op::JUMP) => "jump",
            Asker::Step(op::BRANCH) => "branch",
            Asker::Step(op::CHECK) => "check",
            Asker::Step(_) => "jumpr",
        };
        out.pad(text)
    }
}

/// The lookups that were made in a module, each by both.
#[derive(Default)]
pub struct Looked(Vec<(Index, Asker)>);

impl Looked {
    /// Looks indexes of every kind up in an accepted module.
    pub fn of(module: &Module, file: &[u8], random: &mut Random) -> Result<Looked, String> {
        let mut looked = Looked::default();
        let mut finder = Finder {
            module,
            file,
            memory: vec![0; module.layout.size as usize],
            random,
        };
        for index in Index::ALL {
            let Some(at) = index.choose(finder.random, module) else {
                continue;
            };
            for asker in Asker::ALL {
                let asked = finder.ask(asker, at);
                if asked.map_err(|what| format!("{asker} to {at}: {what}"))? {
                    looked.0.push((index, asker));
                }
            }
        }
        Ok(looked)
    }
}

struct Finder<'a> {
    module: &'a Module,
    file: &'a [u8],
    memory: Vec<u8>,
    random: &'a mut Random,
}

impl Finder<'_> {
    /// Looks an index up by both; false if nothing in the module can ask so.
    fn ask(&mut self, asker: Asker, at: u32) -> Result<bool, String> {
        match asker {
            Asker::Verifier(op) => {
                let place = self.place_with(op);
                place.map_or(Ok(false), |place| self.name(place, at).map(|()| true))
            }
            Asker::Step(op) => self.step(op, at).map(|()| true),
        }
    }

    fn place_with(&mut self, op: u8) -> Option<usize> {
        let code = (0..).zip(&self.module.code);
        let places: Vec<usize> = code
            .filter(|(_, one)| one.op == op)
            .map(|(place, _)| place)
            .collect();
        (!places.is_empty()).then(|| self.random.pick(&places))
    }

    /// Has a jump or branch name the index. By the list it is found or not; if it is, only the claim there can be
    /// broken. Now and then the claims are worked out too.
    fn name(&mut self, place: usize, at: u32) -> Result<(), String> {
        let named = Instruction {
            imm: at,
            ..self.module.code[place]
        };
        let file = self.with(place, named);
        let verified = Side::BOTH.map(|side| side.verify(Limits::BOX, &file));
        let verified = same("verify", verified)?;
        let as_listed = match (in_list(self.module, at), verified) {
            (Some(_), Ok(_)) => true,
            (Some(_), Err(refused)) => refused == (11, place as u32),
            (None, verified) => verified == Err((8, place as u32)),
        };
        if !as_listed {
            return Err(format!("verify: {verified:?} by the name at {place}"));
        }
        if self.random.chance(5) {
            by_both(Limits::BOX, &file)?;
        }
        Ok(())
    }

    /// Makes one step that looks the index up, somewhere in the code. It leaves what is due by the list.
    fn step(&mut self, op: u8, at: u32) -> Result<(), String> {
        let last = self.module.code.len() - 1;
        let any = self.random.below(last + 1);
        let place = self.random.pick(&[any, any, any, last]);
        let instruction = match op {
            op::JUMP => jump(at),
            op::BRANCH => branch(0, 0, test::EQUAL, at),
            op::CHECK => check(1),
            _ => jumpr(1),
        };
        let file = self.with(place, instruction);
        let mut registers = [0; 8];
        registers[1] = at;
        let (ending, pc) = due(self.module, op, place as u16, at);
        for side in Side::BOTH {
            let mut machine = Machine {
                registers,
                pc: place as u16,
            };
            let ran = side.step(Limits::BOX, &file, &mut machine, &mut self.memory, 0);
            if ran != Ok((ending, 1)) || machine != (Machine { registers, pc }) {
                let name = side.name();
                return Err(format!(
                    "{name}: {ran:?}, {machine:?}\nby the list: ending {ending} at {pc}"
                ));
            }
        }
        Ok(())
    }

    /// The file with another instruction.
    fn with(&self, place: usize, instruction: Instruction) -> Vec<u8> {
        let mut file = self.file.to_vec();
        let code = code_bounds(&file);
        file[code].as_chunks_mut().0[place] = instruction.to_bytes();
        file
    }
}

/// What the plain list has at an index.
fn in_list(module: &Module, at: u32) -> Option<&Target> {
    let mut targets = module.targets.iter();
    targets.find(|target| u32::from(target.index) == at)
}

/// The ending that is due, and where the machine is then.
fn due(module: &Module, op: u8, place: u16, at: u32) -> (u32, u16) {
    let target = in_list(module, at);
    let found = match op {
        op::JUMP | op::BRANCH => target.is_some(),
        _ => target.is_some_and(Target::is_indirect),
    };
    match op {
        op::CHECK if !found => (DENIED, place),
        op::CHECK if usize::from(place) + 1 < module.code.len() => (OUT_OF_BUDGET, place + 1),
        op::CHECK => (VIOLATED, place),
        _ if found => (OUT_OF_BUDGET, at as u16),
        _ => (VIOLATED, place),
    }
}

/// How often each kind of index was looked up, by whom.
#[derive(Default)]
pub struct Lookups(BTreeMap<(Index, Asker), u64>);

impl Lookups {
    pub fn count(&mut self, looked: &Looked) {
        for &lookup in &looked.0 {
            *self.0.entry(lookup).or_default() += 1;
        }
    }

    fn of(&self, index: Index, asker: Asker) -> u64 {
        self.0.get(&(index, asker)).copied().unwrap_or(0)
    }

    /// The kinds that never occurred.
    pub fn missing(&self) -> impl Iterator<Item = String> + '_ {
        let kinds = Index::ALL.into_iter();
        let kinds = kinds.flat_map(|index| Asker::ALL.map(|asker| (index, asker)));
        let missing = kinds.filter(|&(index, asker)| self.of(index, asker) == 0);
        missing.map(|(index, asker)| format!("{asker}, {} (targets found)", index.name()))
    }
}

impl fmt::Display for Lookups {
    fn fmt(&self, out: &mut fmt::Formatter<'_>) -> fmt::Result {
        let all: u64 = self.0.values().sum();
        writeln!(
            out,
            "{all} single lookups of indexes in grouped modules, by both as in the plain list of targets."
        )?;
        writeln!(
            out,
            "8: what a jump or branch names, by the verifier; the others by a step."
        )?;
        write!(out, "{:<34}", "")?;
        for asker in Asker::ALL {
            write!(out, " {asker:>9}")?;
        }
        writeln!(out)?;
        for index in Index::ALL {
            write!(out, "  {:<32}", index.name())?;
            for asker in Asker::ALL {
                write!(out, " {:>9}", self.of(index, asker))?;
            }
            writeln!(out)?;
        }
        Ok(())
    }
}
