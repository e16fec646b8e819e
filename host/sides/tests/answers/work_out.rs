//! Document 02's ticket 3: claims that are worked out, and refusals that leave the bytes as they came.

use crate::both::{line, verify, work_out};
use modules::assembler::*;
use modules::encode::{
    claim, target_bounds, test, Instruction, Layout, Module, Range, Target, ANYTHING, DIRECT,
};
use modules::samples::{document_loop, largest, mixed, slowest};
use sides::{sweeps, Limits, Side, Verdict};

const FIRST: u32 = Layout::KNOWN.first();
const LAST: u32 = Layout::KNOWN.last();

/// A claim that rule 7 refuses where it counts.
const CROSSED: [Range; 8] = [(u32::MAX, 0); 8];

fn with_claims(module: &Module, garbled: [Range; 8]) -> Module {
    let mut module = module.clone();
    let targets = module.targets.iter_mut();
    for target in targets.filter(|target| target.kind == DIRECT) {
        target.claim = garbled;
    }
    module
}

/// What a module's file becomes, whatever claims stand in it.
fn worked_out(module: &Module) -> (Verdict, Vec<u8>) {
    let work = |garbled| {
        let mut file = with_claims(module, garbled).to_bytes();
        let verdict = work_out(&mut file);
        (verdict, file)
    };
    let outcome = work(CROSSED);
    for garbled in [[ANYTHING; 8], [(7, 9); 8], [(9, 7); 8]] {
        let (verdict, file) = work(garbled);
        assert_eq!(verdict, outcome.0);
        if verdict.is_ok() {
            assert!(file == outcome.1);
        }
    }
    outcome
}

/// Asserts that a module's own claims are those worked out, in so many sweeps.
fn is_due(module: &Module, made: u32) {
    let (verdict, file) = worked_out(module);
    let counts = [module.code.len() as u32, module.targets.len() as u32];
    assert_eq!(verdict, Ok(counts));
    assert_eq!(targets_of(&file), targets_of(&module.to_bytes()));
    assert!(file == module.to_bytes());
    assert_eq!(sweeps(&file).map(|sweeps| sweeps.made), Ok(made));
}

/// The ranges in a file's targets, for a message that can be read.
fn targets_of(file: &[u8]) -> Vec<Vec<String>> {
    let targets = file[target_bounds(file)].as_chunks::<68>().0.iter();
    let ranges = targets.map(|target| target[4..].as_chunks::<8>().0);
    let text = |pair: &[u8; 8]| format!("{:x?}", u64::from_le_bytes(*pair));
    ranges
        .map(|of_one| of_one.iter().map(text).collect())
        .collect()
}

fn answers(module: &Module, due: &str) {
    assert_eq!(line(worked_out(module).0), due);
}

/// Code with an indirect target at 0 and direct ones, each with the ranges that are due for it.
fn due(code: &[Instruction], direct: &[(u16, &[(usize, Range)])]) -> Module {
    let mut targets = vec![Target::indirect(0)];
    for (index, ranges) in direct {
        targets.push(Target::direct(*index, claim(ranges)));
    }
    let mut module = Module::known(code, &targets);
    module.layout.guard = 4;
    module
}

#[test]
fn the_loop() {
    let mut module = document_loop();
    module.layout.guard = 4;
    module.targets[1].claim = claim(&[(1, (FIRST, LAST + 1))]);
    assert_eq!(
        verify(&with_claims(&module, CROSSED).to_bytes()),
        Err((7, 1))
    );
    is_due(&module, 2);
    module.layout.guard = 3;
    answers(&module, "refused 10 1");
}

/// r0 grows by one in each sweep, up to a limit.
fn counted(limit: u32, head: Range, body: Range) -> Module {
    let code = [
        set(0, 0),
        set(1, limit),
        branch(0, 1, test::BELOW, 4),
        halt(),
        addi(0, 1),
        jump(2),
    ];
    let limit = (1, (limit, limit));
    due(&code, &[(2, &[(0, head), limit]), (4, &[(0, body), limit])])
}

#[test]
fn the_ninth_growth() {
    is_due(&counted(7, (0, 7), (0, 6)), 8);
    is_due(&counted(8, (0, 8), (0, 7)), 9);
    is_due(&counted(9, ANYTHING, (0, 8)), 10);
    // The body's grows for the ninth time one sweep after the head's.
    is_due(&counted(10, ANYTHING, ANYTHING), 11);
    is_due(&counted(1000, ANYTHING, ANYTHING), 11);
}

/// An access after the loop has a pointer into the region only if the count is narrow.
#[test]
fn a_count_that_is_used() {
    for (limit, line) in [(8, "accepted 9 3"), (9, "refused 10 5")] {
        let code = [
            set(0, 0),
            set(1, limit),
            branch(0, 1, test::BELOW, 7),
            set(2, FIRST),
            add(2, 0),
            load(3, 2, 4, 0),
            halt(),
            addi(0, 1),
            jump(2),
        ];
        answers(&due(&code, &[(2, &[]), (7, &[])]), line);
    }
}

/// Index 6 widens target 7 by its taken edge first, and r1 grows by the next one in the sweep that reaches it.
#[test]
fn taken_comes_before_next() {
    let code = [
        set(0, 0),
        andi(1, 1),
        set(2, 9),
        jump(6),
        addi(1, 1),
        jump(7),
        branch(0, 1, test::EQUAL, 7),
        branch(1, 2, test::BELOW, 4),
        halt(),
    ];
    let with = |range| [(0, (0, 0)), (1, range), (2, (9, 9))];
    let [body, first, again] = [(0, 8), (0, 1), ANYTHING].map(with);
    is_due(&due(&code, &[(4, &body), (6, &first), (7, &again)]), 10);
}

#[test]
fn an_unreached_target() {
    let code = [halt(), set(0, 5), jump(3), halt()];
    is_due(&due(&code, &[(1, &[]), (3, &[(0, (5, 5))])]), 3);
    // Each is given anything when the one before it has come to nothing.
    let code = [halt(), halt(), halt()];
    is_due(&due(&code, &[(1, &[]), (2, &[])]), 3);
}

/// What stands behind a halt, jump or jumpr and is no target brings nothing to a target.
#[test]
fn no_way_in() {
    let code = [set(1, FIRST), load(0, 1, 4, 0), halt(), set(1, 0), jump(1)];
    answers(&due(&code, &[(1, &[])]), "refused 12 3");
}

/// Edges to what is no target are passed over; the ranges of a branch go on where its next index is none.
#[test]
fn no_target() {
    let code = [set(1, FIRST), jump(3), halt(), load(0, 1, 4, 0), halt()];
    answers(&due(&code, &[(2, &[])]), "refused 8 1");
    let code = [set(1, 7), branch(1, 2, test::BELOW, 9), set(0, 1), halt()];
    answers(&due(&code, &[(2, &[])]), "refused 8 1");
}

/// Of a direct target rule 7 leaves out the order of the ends, and nothing else.
#[test]
fn bad_targets() {
    let module = due(&[halt(); 4], &[(1, &[]), (2, &[]), (3, &[])]);
    let mut crossed = with_claims(&module, CROSSED);
    assert_eq!(work_out(&mut crossed.to_bytes()), Ok([4, 4]));
    crossed.targets[2].zero = 1;
    assert_eq!(verify(&crossed.to_bytes()), Err((7, 1)));
    assert_eq!(work_out(&mut crossed.to_bytes()), Err((7, 2)));
    let refused = |change: fn(&mut Target)| {
        let mut module = with_claims(&module, CROSSED);
        change(&mut module.targets[2]);
        assert_eq!(work_out(&mut module.to_bytes()), Err((7, 2)));
    };
    refused(|target| target.index = 1);
    refused(|target| target.index = 4);
    refused(|target| target.kind = 2);
    refused(|target| target.kind = 1);
    refused(|target| {
        *target = Target {
            claim: claim(&[(3, (1, u32::MAX))]),
            ..Target::indirect(2)
        }
    });
    let mut first = module.clone();
    first.targets[0].kind = DIRECT;
    assert_eq!(work_out(&mut first.to_bytes()), Err((7, 0)));
}

#[test]
fn refused_files() {
    assert_eq!(work_out(&mut []), Err((1, 0)));
    let file = with_claims(&document_loop(), CROSSED).to_bytes();
    for cut in 0..file.len() {
        assert!(matches!(work_out(&mut file[..cut].to_vec()), Err((1, _))));
    }
    let with = |at: usize, byte: u8| {
        let mut file = file.clone();
        file[at] = byte;
        work_out(&mut file)
    };
    assert_eq!(with(15, 9), Err((2, 15)));
    assert_eq!(with(16, 13), Err((3, 15)));
    assert_eq!(with(7, 1), Err((5, 0)));
    assert_eq!(with(18, 16), Err((6, 0)));
    assert_eq!(work_out(&mut [&file[..], &[0]].concat()), Err((4, 189)));
}

#[test]
fn refused_code() {
    let one = |code: &[Instruction], due_line: &str| answers(&due(code, &[]), due_line);
    one(&[jumpr(0)], "refused 9 0");
    one(&[load(0, 1, 1, 0), halt()], "refused 10 0");
    one(&[set(0, 1)], "refused 13 0");
}

/// Those of the samples that have claims are accepted with those worked out.
#[test]
fn samples() {
    for module in [document_loop(), largest(), mixed()] {
        let counts = [module.code.len() as u32, module.targets.len() as u32];
        assert_eq!(worked_out(&module).0, Ok(counts));
    }
}

/// Nearly as many sweeps as there can be: 73 for each target, and one.
#[test]
fn many_sweeps() {
    let file = slowest().to_bytes();
    let made = sweeps(&file).map(|sweeps| sweeps.made);
    assert_eq!(made, Ok(73 * 254 + 1));
    // All registers of all targets grow to anything, as it claims.
    for side in Side::BOTH {
        let mut worked_out = file.clone();
        let answer = side.work_out(Limits::BOX, &mut worked_out);
        assert_eq!(answer, Ok([4096, 256]));
        assert!(worked_out == file, "{}", side.name());
    }
}
