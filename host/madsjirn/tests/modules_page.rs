//! Every file that docs/MODULES.md shows is judged as the page says, and its runs end so. Every refusal and every
//! ending has its row there.
//!
//! An example is a fenced block. Its info string is `module` or `change`, and then the line that the box's gate
//! program prints for it. A line of the block is an offset, a colon, bytes in hex and, after `#`, a remark.
//! A module is a whole file; a change is other bytes for some of the last module above it. In a block `changes`
//! every line is a change by itself, and what is printed stands before it and a bar.
//!
//! A block `rust` is the file `write_loop/mod.rs`, and a block `c` stands in `host/c/loop.c`. Both write the first
//! module.

// As the page shows it.
#[rustfmt::skip]
mod write_loop;

use std::fs;
use std::path::Path;

use madsjirn::{verify, work_out, Ending, Limits, Machine, Refusal, Rule, Run, LONGEST_FILE};

/// A file of the repository.
fn bytes_of(path: &str) -> Vec<u8> {
    let path = Path::new(env!("CARGO_MANIFEST_DIR"))
        .join("../..")
        .join(path);
    fs::read(&path).unwrap_or_else(|error| panic!("{}: {error}", path.display()))
}

fn page() -> String {
    String::from_utf8(bytes_of("docs/MODULES.md")).expect("the page is text")
}

#[test]
fn examples_are_judged_as_the_page_says() {
    assert_eq!(judge_page(&page()).len(), 6, "modules on the page");
}

#[test]
fn each_refusal_of_a_module_is_shown() {
    let page = page();
    let examples = examples(&page);
    for number in 1..=13 {
        let begin = format!("refused {number} ");
        let mut shown = examples.iter().map(|example| &example.words);
        assert!(shown.any(|words| words.starts_with(&begin)), "{begin}");
    }
}

#[test]
fn each_refusal_and_each_ending_has_its_row() {
    let page = page();
    let refusals = Rule::ALL.map(|rule| format!("| {} | {rule} |", rule.number()));
    let endings = Ending::ALL.map(|ending| format!("| {} | {ending} |", ending.number()));
    for row in refusals.iter().chain(&endings) {
        let found = page.lines().filter(|line| line.starts_with(row)).count();
        assert_eq!(found, 1, "rows that begin with {row}");
    }
}

#[test]
fn runs_end_as_the_page_says() {
    let modules = judge_page(&page());
    let [of_the_loop, of_two_samples, of_the_lowest, of_the_counted, ..] = &modules[..] else {
        panic!("too few modules on the page");
    };
    assert_eq!(*of_the_loop, bytes_of("crates/gate/stdin"));
    let (run, machine) = run_of(of_the_loop, &[]);
    assert_eq!((run.ending, run.steps), (Ending::Trapped, 3_074));
    assert_eq!((machine.pc, machine.registers[1]), (1, 0x2000_1000));
    let (run, machine) = run_of(of_two_samples, &[]);
    assert_eq!((run.ending, run.steps), (Ending::Trapped, 4_098));
    assert_eq!((machine.pc, machine.registers[1]), (1, 0x2000_1000));
    let (run, machine) = run_of(of_the_lowest, &[]);
    assert_eq!((run.ending, run.steps), (Ending::Trapped, 10_242));
    assert_eq!((machine.pc, machine.registers[1]), (1, 0x2000_1000));
    let samples = [5_i16, -3, 2].map(i16::to_le_bytes);
    let (_, machine) = run_of(of_the_lowest, samples.as_flattened());
    assert_eq!(machine.registers[3], 0xFFFF_FFFD);
    let (run, _) = run_of(of_the_counted, &[]);
    assert_eq!((run.ending, run.steps), (Ending::Halted, 50));
}

#[test]
fn the_loop_is_written_as_the_page_says() {
    let page = page();
    assert_eq!(sources(&page, "rust"), [include_str!("write_loop/mod.rs")]);
    let in_c = sources(&page, "c");
    let program = String::from_utf8(bytes_of("host/c/loop.c")).expect("the program is text");
    assert_eq!(in_c.len(), 1, "functions in C on the page");
    assert!(
        program.contains(&in_c[0]),
        "the function in C is the program's"
    );

    let mut buffer = [0; LONGEST_FILE];
    let length = write_loop::write_loop(&mut buffer).expect("the loop is written");
    assert_eq!(buffer[..length], judge_page(&page)[0]);
}

/// The blocks of a page that are in a language.
fn sources(page: &str, language: &str) -> Vec<String> {
    let begin = format!("```{language}");
    let mut lines = page.lines();
    let mut sources = Vec::new();
    while lines.any(|line| line == begin) {
        let block = lines.by_ref().take_while(|line| *line != "```");
        sources.push(block.map(|line| format!("{line}\n")).collect());
    }
    sources
}

/// With claims that no verifier accepts over those of the direct targets, every module of the page is accepted again.
#[test]
fn claims_are_worked_out() {
    for (module, number) in judge_page(&page()).into_iter().zip(1..) {
        let mut file = garbled(&module);
        let answered = work_out(Limits::BOX, &mut file)
            .map(|module| (module.instructions(), module.targets()));
        let accepted =
            verify(Limits::BOX, &module).map(|module| (module.instructions(), module.targets()));
        assert_eq!(answered, accepted, "module {number} of the page");
        if number == 1 {
            assert_eq!(
                file[133..141],
                [0, 0, 0, 0x20, 0, 0x10, 0, 0x20],
                "r1 in the loop's claim"
            );
        }
    }
}

/// The file with FFFFFFFF hex to 0 for every register of each direct target.
fn garbled(module: &[u8]) -> Vec<u8> {
    let mut file = module.to_vec();
    let code = usize::from(u16::from_le_bytes([file[16], file[17]]));
    for target in file[21 + code..]
        .chunks_exact_mut(68)
        .filter(|target| target[2] == 0)
    {
        for range in target[4..].chunks_exact_mut(8) {
            range.copy_from_slice(&[0xFF, 0xFF, 0xFF, 0xFF, 0, 0, 0, 0]);
        }
    }
    file
}

/// A run from pc 0 with every register 0 and some bytes at the beginning of a region of zeros, and the machine that it
/// leaves.
fn run_of(file: &[u8], bytes: &[u8]) -> (Run, Machine) {
    let module = verify(Limits::BOX, file).expect("the module is accepted");
    let mut machine = Machine::default();
    let mut region = [0; 4096];
    region[..bytes.len()].copy_from_slice(bytes);
    let run = module.run(&mut machine, &mut region, 0, u64::MAX);
    (run.expect("the run is made"), machine)
}

#[test]
#[should_panic(expected = "line 4 of the page")]
fn a_wrong_answer_fails() {
    judge_page("```module refused 1 0\n0: 01 0C 00\n```\n```change refused 1 0\n0: 02\n```\n");
}

/// Judges every example of a page, and gives its modules.
fn judge_page(page: &str) -> Vec<Vec<u8>> {
    let mut modules: Vec<Vec<u8>> = Vec::new();
    for example in examples(page) {
        let line = example.line;
        let file = match (example.kind, modules.last()) {
            (Kind::Module, _) => example.whole(),
            (Kind::Change, Some(module)) => example.applied_to(module.clone()),
            (Kind::Change, None) => panic!("line {line} of the page: a change of nothing"),
        };
        assert_eq!(answer(&file), example.words, "line {line} of the page");
        if example.kind == Kind::Module {
            modules.push(file);
        }
    }
    modules
}

/// What the box's gate program prints.
fn answer(file: &[u8]) -> String {
    match verify(Limits::BOX, file) {
        Ok(module) => format!("accepted {} {}", module.instructions(), module.targets()),
        Err(Refusal { rule, place }) => format!("refused {} {place}", rule.number()),
    }
}

#[derive(Clone, Copy, PartialEq)]
enum Kind {
    Module,
    Change,
}

struct Example {
    /// Where the example begins: a line of the page, counted from 1.
    line: usize,
    kind: Kind,
    /// The answer that the page gives.
    words: String,
    /// Offsets and the bytes there.
    pieces: Vec<(usize, Vec<u8>)>,
}

impl Example {
    /// The file, whose pieces must stand one after the other.
    fn whole(&self) -> Vec<u8> {
        let mut file = Vec::new();
        for (offset, bytes) in &self.pieces {
            assert_eq!(
                *offset,
                file.len(),
                "offsets in the block at line {}",
                self.line
            );
            file.extend(bytes);
        }
        file
    }

    fn applied_to(&self, mut file: Vec<u8>) -> Vec<u8> {
        for (offset, bytes) in &self.pieces {
            let part = file.get_mut(*offset..offset + bytes.len());
            let part = part
                .unwrap_or_else(|| panic!("offset {offset} in the block at line {}", self.line));
            part.copy_from_slice(bytes);
        }
        file
    }
}

fn examples(page: &str) -> Vec<Example> {
    let mut examples = Vec::new();
    let mut lines = page.lines().zip(1..);
    while let Some((text, line)) = lines.next() {
        let Some(info) = text.strip_prefix("```") else {
            continue;
        };
        let block = lines.by_ref().take_while(|(text, _)| *text != "```");
        match info.split_once(' ').unwrap_or((info, "")) {
            ("module", words) => examples.push(example(Kind::Module, words, line, block)),
            ("change", words) => examples.push(example(Kind::Change, words, line, block)),
            ("changes", "") => examples.extend(block.map(|(text, line)| single_change(text, line))),
            ("rust" | "c", "") => block.for_each(drop),
            _ => panic!("line {line} of the page: a block that is no example"),
        }
    }
    examples
}

fn example<'a>(
    kind: Kind,
    words: &str,
    line: usize,
    block: impl Iterator<Item = (&'a str, usize)>,
) -> Example {
    Example {
        line,
        kind,
        words: words.to_owned(),
        pieces: block.map(|(text, line)| piece(text, line)).collect(),
    }
}

fn single_change(text: &str, line: usize) -> Example {
    let Some((words, change)) = text.split_once('|') else {
        panic!("line {line} of the page: no bar");
    };
    example(
        Kind::Change,
        words.trim(),
        line,
        [(change, line)].into_iter(),
    )
}

fn piece(text: &str, line: usize) -> (usize, Vec<u8>) {
    let parsed = || {
        let text = text.split('#').next()?;
        let (offset, bytes) = text.split_once(':')?;
        let offset = offset.trim().parse().ok()?;
        let bytes = bytes.split_whitespace().map(byte).collect::<Option<_>>()?;
        Some((offset, bytes))
    };
    parsed().unwrap_or_else(|| panic!("line {line} of the page: no offset and bytes"))
}

fn byte(digits: &str) -> Option<u8> {
    (digits.len() == 2).then(|| u8::from_str_radix(digits, 16).ok())?
}
