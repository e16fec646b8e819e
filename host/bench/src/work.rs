//! The pieces of work that are measured, each done by either side.

use modules::encode::Module;
use modules::samples::{self, TARGETS};
use modules::tables;
use sides::{Limits, Machine, Side, Tables};
use std::collections::BTreeMap;
use std::hint::black_box;

#[derive(Clone, Copy, Debug, PartialEq, Eq)]
pub enum Work {
    /// Reads the largest module.
    Read,
    /// Verifies the largest module, which reads it too.
    Verify,
    /// Writes the largest module from its tables.
    Write,
    /// Runs document 01's loop to its trap.
    Loop,
    /// Runs the mixed module for [`STEPS`] steps.
    Mixed,
    /// Begins a run of document 01's loop with budget 0.
    JudgeLoop,
    /// Begins a run of the mixed module with budget 0.
    JudgeMixed,
    /// Works out the claims of the mixed module.
    ClaimsMixed,
    /// Works out the claims of the largest module.
    ClaimsLargest,
    /// Works out the claims of the slowest module.
    ClaimsSlowest,
    /// Verifies the branching module with so many targets.
    VerifyTargets(usize),
    /// Runs the tour of so many targets for [`STEPS`] steps.
    StepTargets(usize),
    /// Begins a run of the tour of so many targets with budget 0.
    JudgeTargets(usize),
}

impl Work {
    const ONCE: [Work; 10] = [
        Work::Read,
        Work::Verify,
        Work::Write,
        Work::Loop,
        Work::Mixed,
        Work::JudgeLoop,
        Work::JudgeMixed,
        Work::ClaimsMixed,
        Work::ClaimsLargest,
        Work::ClaimsSlowest,
    ];

    pub fn all() -> impl Iterator<Item = Work> {
        let by_targets = [Work::VerifyTargets, Work::StepTargets, Work::JudgeTargets].into_iter();
        let by_targets = by_targets.flat_map(|work| TARGETS.map(work));
        Work::ONCE.into_iter().chain(by_targets)
    }

    pub fn name(self) -> String {
        match self {
            Work::Read => "read".into(),
            Work::Verify => "verify".into(),
            Work::Write => "write".into(),
            Work::Loop => "loop".into(),
            Work::Mixed => "mixed".into(),
            Work::JudgeLoop => "judge-loop".into(),
            Work::JudgeMixed => "judge-mixed".into(),
            Work::ClaimsMixed => "claims-mixed".into(),
            Work::ClaimsLargest => "claims-largest".into(),
            Work::ClaimsSlowest => "claims-slowest".into(),
            Work::VerifyTargets(targets) => format!("verify-{targets}"),
            Work::StepTargets(targets) => format!("step-{targets}"),
            Work::JudgeTargets(targets) => format!("judge-{targets}"),
        }
    }

    pub fn named(name: &str) -> Option<Work> {
        Work::all().find(|work| work.name() == name)
    }

    /// What the work is divided by.
    pub fn unit(self) -> &'static str {
        match self {
            Work::Read | Work::Verify | Work::Write | Work::VerifyTargets(_) => "instruction",
            Work::Loop | Work::Mixed | Work::StepTargets(_) => "step",
            _ => "call",
        }
    }

    /// The instructions that are judged or written, or the steps that are made; 0 where the unit is a call.
    fn count(self) -> u64 {
        match self {
            Work::Read | Work::Verify | Work::Write | Work::VerifyTargets(_) => 4096,
            Work::Loop => samples::LOOP_STEPS,
            Work::Mixed | Work::StepTargets(_) => STEPS,
            _ => 0,
        }
    }

    fn budget(self) -> u64 {
        match self {
            Work::Mixed | Work::StepTargets(_) => STEPS,
            Work::JudgeLoop | Work::JudgeMixed | Work::JudgeTargets(_) => 0,
            _ => u64::MAX,
        }
    }
}

/// One run of a module that never ends: long enough that judging the file at its start hardly counts.
pub const STEPS: u64 = 250_000;

/// A file for each number of targets.
type Files = BTreeMap<usize, Vec<u8>>;

fn files(sample: fn(usize) -> Module) -> Files {
    TARGETS
        .map(|targets| (targets, sample(targets).to_bytes()))
        .into()
}

/// The modules, and a memory for each side in which the region begins at [`OFFSET`].
pub struct Bench {
    largest: Vec<u8>,
    document_loop: Vec<u8>,
    mixed: Vec<u8>,
    slowest: Vec<u8>,
    branching: Files,
    tours: Files,
    /// The mixed, the largest and the slowest module once more, whose claims are worked out.
    worked_out: [Vec<u8>; 3],
    /// Those of the largest module, and the file that each side writes from them.
    tables: Tables,
    written: [Vec<u8>; 2],
    memories: [Vec<u8>; 2],
}

const OFFSET: usize = 512;
const MEMORY_LENGTH: usize = 8192;

impl Bench {
    pub fn new() -> Bench {
        let tables = tables::Tables::of(&samples::largest());
        let largest = samples::largest().to_bytes();
        let mixed = samples::mixed().to_bytes();
        let slowest = samples::slowest().to_bytes();
        let bench = Bench {
            worked_out: [mixed.clone(), largest.clone(), slowest.clone()],
            tables: Tables::new(&tables),
            written: [(); 2].map(|()| vec![0; largest.len()]),
            largest,
            document_loop: samples::document_loop().to_bytes(),
            mixed,
            slowest,
            branching: files(samples::branching),
            tours: files(samples::tour),
            memories: [(); 2].map(|()| vec![0; MEMORY_LENGTH]),
        };
        for (name, file) in bench.files() {
            if let Err(refused) = Side::Proved.verify(Limits::BOX, file) {
                panic!("the {name} module is refused: {refused:?}");
            }
        }
        bench
    }

    /// Each module's name and file.
    pub fn files(&self) -> impl Iterator<Item = (String, &Vec<u8>)> {
        let once = [
            ("largest", &self.largest),
            ("loop", &self.document_loop),
            ("mixed", &self.mixed),
            ("slowest", &self.slowest),
        ];
        let by_targets = [("branching", &self.branching), ("tour", &self.tours)].into_iter();
        let by_targets = by_targets.flat_map(|(name, files)| {
            let files = files.iter();
            files.map(move |(targets, file)| (format!("{name}-{targets}"), file))
        });
        let once = once.map(|(name, file)| (name.to_string(), file));
        once.into_iter().chain(by_targets)
    }

    /// Both memories as they were at first, and nothing written.
    pub fn clear(&mut self) {
        for bytes in self.memories.iter_mut().chain(&mut self.written) {
            bytes.fill(0);
        }
    }

    /// Whether both sides have left the same memory and written the same file.
    pub fn memories_agree(&self) -> bool {
        self.memories[0] == self.memories[1] && self.written[0] == self.written[1]
    }

    /// Does a piece of work `times` times. Answers how many units were done in all.
    pub fn repeat(&mut self, side: Side, work: Work, times: u32) -> u64 {
        let [claims_mixed, claims_largest, claims_slowest] = &mut self.worked_out;
        let file = match work {
            Work::Read | Work::Verify => &mut self.largest,
            Work::Write => &mut self.written[side as usize],
            Work::Loop | Work::JudgeLoop => &mut self.document_loop,
            Work::Mixed | Work::JudgeMixed => &mut self.mixed,
            Work::ClaimsMixed => claims_mixed,
            Work::ClaimsLargest => claims_largest,
            Work::ClaimsSlowest => claims_slowest,
            Work::VerifyTargets(targets) => of(&mut self.branching, targets),
            Work::StepTargets(targets) | Work::JudgeTargets(targets) => {
                of(&mut self.tours, targets)
            }
        };
        let memory = &mut self.memories[side as usize];
        for _ in 0..times {
            let count = do_once(side, file, &self.tables, memory, work);
            assert_eq!(count, work.count(), "{}", work.name());
        }
        work.count().max(1) * u64::from(times)
    }
}

fn of(files: &mut Files, targets: usize) -> &mut Vec<u8> {
    files.get_mut(&targets).expect("one that is measured")
}

/// Does a piece of work on the box and answers the instructions judged or written, or the steps made.
fn do_once(side: Side, file: &mut [u8], tables: &Tables, memory: &mut [u8], work: Work) -> u64 {
    // So that neither side is compiled for these alone.
    let limits = black_box(Limits::BOX);
    match work {
        // The claims that the file has then are ignored the next time, so that each time is like the first.
        Work::ClaimsMixed | Work::ClaimsLargest | Work::ClaimsSlowest => {
            let worked_out = side.work_out(limits, black_box(file));
            black_box(worked_out).expect("the module is accepted");
            0
        }
        Work::Read => {
            let read = side.read(black_box(file));
            let [.., instructions, _] = black_box(read).expect("the module is readable");
            u64::from(instructions)
        }
        Work::Verify | Work::VerifyTargets(_) => {
            let verified = side.verify(limits, black_box(file));
            let [instructions, _] = black_box(verified).expect("the module is accepted");
            u64::from(instructions)
        }
        Work::Write => {
            let written = side.write(black_box(tables), black_box(file));
            let length = black_box(written).expect("the tables are good");
            u64::from((length - 21 - 256 * 68) / 8)
        }
        Work::Loop
        | Work::Mixed
        | Work::JudgeLoop
        | Work::JudgeMixed
        | Work::StepTargets(_)
        | Work::JudgeTargets(_) => {
            let mut machine = Machine {
                registers: [0; 8],
                pc: black_box(0),
            };
            let (offset, budget) = (black_box(OFFSET), black_box(work.budget()));
            let file = black_box(file);
            let ran = side.run(limits, file, &mut machine, memory, offset, budget);
            black_box(&machine);
            let (_, steps) = black_box(ran).expect("the run is made");
            steps
        }
    }
}
