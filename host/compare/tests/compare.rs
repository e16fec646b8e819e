//! A smaller portion of what the program `compare` does.

use compare::{compare, Limited, Looked, Seen, Tally, Worked, Written, SEED};
use modules::assembler::*;
use modules::encode::{claim, test, Instruction, Layout, Module, Range, Target};
use modules::gate;
use modules::generate::{Generated, Origin};
use modules::random::Random;
use modules::samples::{branching, document_loop, mixed, sized};
use sides::ending::HALTED;
use sides::{Limits, Side};

#[test]
fn both_agree_and_everything_occurs() {
    let tally = compare(SEED, 5_000, 1_000).expect("both answer alike");
    assert_eq!(tally.missing(), Vec::<String>::new());
}

#[test]
fn both_agree_on_other_seeds() {
    for seed in 0..4 {
        compare(seed, 500, 200).expect("both answer alike");
    }
}

#[test]
fn a_refusal_without_a_name_is_counted_too() {
    let mut tally = Tally::default();
    tally.count_call(0, Err((99, 0)), false);
    let table = tally.to_string();
    let line = table.lines().find(|line| line.starts_with("  99 "));
    let once = |line: &str| line.split_whitespace().filter(|word| *word == "1").count() == 1;
    assert!(line.is_some_and(once), "{table}");
}

#[test]
fn a_budget_past_32_bits_that_never_occurred_is_missing() {
    let past = 1 << 32;
    let mut tally = Tally::default();
    for (budget, ran) in [
        (9, Ok((HALTED, 9))),
        (past + 9, Ok((HALTED, 9))),
        (past, Err((14, 0))),
    ] {
        tally.count_call(budget, ran, false);
        assert!(tally.missing().contains(&"a budget past 32 bits".into()));
    }
    tally.count_call(past + 8, Ok((HALTED, 9)), false);
    assert!(!tally.missing().contains(&"a budget past 32 bits".into()));
}

#[test]
fn a_turn_that_never_occurred_is_missing() {
    let (accepted, wild, broken) = (Ok([1, 1]), Err((10, 0)), Err((11, 0)));
    let wanted = [
        (Origin::Narrowed, accepted, wild),
        (Origin::Narrowed, accepted, broken),
        (Origin::EmptyN, wild, accepted),
        (Origin::EmptyN, broken, accepted),
        (Origin::EmptyB, wild, accepted),
        (Origin::EmptyB, broken, accepted),
    ];
    let none = Tally::default().missing().len();
    let mut tally = Tally::default();
    for (number, (origin, now, earlier)) in (1..).zip(wanted) {
        tally.count_turn(origin, earlier, earlier);
        tally.count_turn(Origin::Near, now, earlier);
        assert_eq!(tally.missing().len(), none - (number - 1));
        tally.count_turn(origin, now, earlier);
        assert_eq!(tally.missing().len(), none - number);
    }
}

#[test]
fn a_kind_of_signed_load_that_never_occurred_is_missing() {
    let files = files_with_signed_widths();
    let none = Tally::default().missing().len();
    let mut tally = Tally::default();
    for (number, file) in (1..).zip(&files) {
        let seen = Seen::of(file, Side::HandWritten.verify(Limits::BOX, file));
        tally.count_signed(Origin::Near, &seen);
        assert_eq!(tally.missing().len(), none - number);
    }
    for (number, width) in (1..).zip([129, 130]) {
        tally.count_signed_run(width);
        assert_eq!(tally.missing().len(), none - files.len() - number);
    }
}

/// A file for each kind.
fn files_with_signed_widths() -> Vec<Vec<u8>> {
    let start = [Target::indirect(0)];
    let only = |instruction: Instruction| {
        let code = [guard(1), instruction, halt()];
        Module::known(&code, &start).to_bytes()
    };
    let at_a_sample = |bytes: u8| {
        let address = load(0, 2, 1, Layout::KNOWN.base as i32);
        let sample = load_signed(2, 1, bytes, 0);
        Module::known(&[guard(1), sample, shr(2, 8), address, halt()], &start).to_bytes()
    };
    let claimed = |bytes: u8| {
        let claimed = Target::direct(2, claim(&[(0, (0, 65_535))]));
        let code = [guard(1), load_signed(0, 1, bytes, 0), halt()];
        Module::known(&code, &[start[0], claimed]).to_bytes()
    };
    let alone = [
        load(0, 1, 129, 0),
        load(0, 1, 130, 0),
        load(0, 1, 129, 257),
        load(0, 1, 130, 256),
        load(0, 1, 128, 0),
        load(0, 1, 131, 0),
        load(0, 1, 132, 0),
        store(0, 1, 129, 0),
        store(0, 1, 130, 0),
        branch(0, 1, 129, 0),
        branch(0, 1, 130, 0),
        shr(0, 129),
        sar(0, 130),
    ];
    let mut files = alone.map(only).to_vec();
    files.extend([1, 2].map(at_a_sample));
    files.extend([1, 2].map(claimed));
    files
}

#[test]
fn a_kind_of_claims_worked_out_that_never_occurred_is_missing() {
    let mut tally = Tally::default();
    for (file, kinds) in files_with_claims() {
        let due = missing_claims(&tally).into_iter();
        let due: Vec<String> = due.filter(|kind| !kinds.contains(&kind.as_str())).collect();
        count_claims(&mut tally, &file);
        assert_eq!(missing_claims(&tally), due, "{kinds:?}");
    }
    let mut left = missing_claims(&tally);
    left.retain(|kind| !kind.starts_with("refused "));
    assert_eq!(left, Vec::<String>::new());
    for case in gate::cases() {
        count_claims(&mut tally, &case.file);
    }
    assert_eq!(missing_claims(&tally), Vec::<String>::new());
}

fn count_claims(tally: &mut Tally, file: &[u8]) {
    let verified = Side::HandWritten.verify(Limits::BOX, file);
    let worked = Worked::of(file, verified, &mut Random::for_case(SEED, 0));
    tally.count_worked(Origin::Near, &worked.expect("both answer alike"));
}

fn missing_claims(tally: &Tally) -> Vec<String> {
    missing_of(tally, " (claims worked out)")
}

/// Files with the kinds that they show for the first time.
fn files_with_claims() -> Vec<(Vec<u8>, Vec<&'static str>)> {
    let crossed = [(u32::MAX, 0); 8];
    let start = Target::indirect(0);
    let looping = |r1: Range| {
        let mut module = document_loop();
        module.targets[1].claim = claim(&[(1, r1)]);
        module.to_bytes()
    };
    let counted = |after: &[Instruction]| {
        let begin = [
            set(0, 0),
            set(1, 100),
            addi(0, 1),
            branch(0, 1, test::BELOW, 2),
        ];
        let code = [&begin, after].concat();
        Module::known(&code, &[start, Target::direct(2, crossed)]).to_bytes()
    };
    let behind_a_halt = |instruction: Instruction, ranges: &[(usize, Range)]| {
        let unreached = Target::direct(1, claim(ranges));
        Module::known(&[halt(), instruction, halt()], &[start, unreached]).to_bytes()
    };
    let bad_zero = Target {
        zero: 1,
        ..Target::direct(2, crossed)
    };
    let bad_targets = [start, Target::direct(1, crossed), bad_zero];
    let through_r0 = load(2, 0, 1, Layout::KNOWN.base as i32);
    let region = Layout::KNOWN.region();
    vec![
        (
            Module::known(&[halt()], &[start]).to_bytes(),
            vec!["accepted as it came"],
        ),
        (
            looping((1, 0)),
            vec!["accepted, other claims", "accepted, as it came 7"],
        ),
        (looping((0, u32::MAX)), vec!["accepted, as it came 10"]),
        (looping(region), vec!["accepted, as it came 11"]),
        (counted(&[halt()]), vec!["accepted, a ninth growth"]),
        (
            counted(&[through_r0, halt()]),
            vec!["refused 10, a ninth growth", "refused 10"],
        ),
        (
            behind_a_halt(copy(0, 1), &[]),
            vec!["accepted, unreached targets"],
        ),
        (
            behind_a_halt(load(0, 1, 1, 0), &[(1, region)]),
            vec!["refused 10, as it came not"],
        ),
        (
            Module::known(&[halt(); 3], &bad_targets).to_bytes(),
            vec!["refused 7 at a later target", "refused 7"],
        ),
    ]
}

#[test]
fn a_kind_of_tables_written_that_never_occurred_is_missing() {
    let file = mixed().to_bytes();
    let mut tally = Tally::default();
    let all = missing_tables(&tally).len();
    // A file whose fields are not whole has no tables.
    assert_eq!(count_tables(&mut tally, &file[1..], 0), 0);
    assert_eq!(missing_tables(&tally).len(), all);
    // Each shows that it is written, and at least one fault.
    assert!(count_tables(&mut tally, &file, 0) >= 2);
    assert!(missing_tables(&tally).len() <= all - 2);
    for case in 1..2_000 {
        count_tables(&mut tally, &file, case);
    }
    let due = [5, 6, 7].map(|number| format!("refused {number}, as its file"));
    assert_eq!(missing_tables(&tally), due);
    for case in gate::cases() {
        count_tables(&mut tally, &case.file, 0);
    }
    assert_eq!(missing_tables(&tally), Vec::<String>::new());
}

/// Counts what a file's tables show with the faults of a case, and gives how many kinds these are.
fn count_tables(tally: &mut Tally, file: &[u8], case: u64) -> usize {
    let read = Side::HandWritten.read(file);
    let written = Written::of(file, read, &mut Random::for_case(SEED, case));
    let written = written.expect("both answer alike");
    tally.count_written(Origin::Near, &written);
    written.kinds()
}

fn missing_tables(tally: &Tally) -> Vec<String> {
    missing_of(tally, " (tables written)")
}

/// The missing kinds that have this behind them.
fn missing_of(tally: &Tally, suffix: &str) -> Vec<String> {
    let missing = tally.missing().into_iter();
    let kinds = missing.filter_map(|kind| Some(kind.strip_suffix(suffix)?.into()));
    kinds.collect()
}

#[test]
fn a_shape_that_never_occurred_is_missing() {
    let shapes = |tally: &Tally| missing_of(tally, " (targets)");
    let mut tally = Tally::default();
    let mut due = shapes(&tally);
    tally.count_shapes(Origin::Near, &document_loop().to_bytes());
    due.retain(|shape| shape != "n not a multiple of 64");
    assert_eq!(shapes(&tally), due);
    tally.count_shapes(Origin::Near, &branching(2).to_bytes());
    due.retain(|shape| shape != "n a multiple of 64" && shape != "an empty group between");
    assert_eq!(shapes(&tally), due);
    let first = |count: u16| {
        let targets: Vec<Target> = (0..count).map(Target::indirect).collect();
        Module::known(&[halt(); 256], &targets).to_bytes()
    };
    for (count, shown) in [
        (63, &[][..]),
        (64, &["64 targets or more", "a full group"]),
        (65, &["on both sides of an edge"]),
        (199, &[]),
        (200, &["200 targets or more"]),
        (255, &[]),
        (256, &["256 targets", "at the last instruction"]),
    ] {
        tally.count_shapes(Origin::Near, &first(count));
        due.retain(|shape| !shown.contains(&shape.as_str()));
        assert_eq!(shapes(&tally), due, "{count} targets");
    }
    assert_eq!(due, Vec::<String>::new());
}

#[test]
fn a_kind_of_targets_found_that_never_occurred_is_missing() {
    let kinds = |tally: &Tally| missing_of(tally, " (targets found)");
    let mut tally = Tally::default();
    let mut due = kinds(&tally);
    // It has no index below n but an indirect target's, and nothing that names one.
    let halt = Module::known(&[halt()], &[Target::indirect(0)]);
    tally.count_looked(&looked_up(&halt));
    due.retain(|kind| {
        let (asker, index) = kind.split_once(", ").expect("who asks, and for what");
        asker.starts_with("8: ") || index == "a direct target" || index.starts_with("none, ")
    });
    assert_eq!(kinds(&tally), due);
    // It has two targets, and a jump names one of them.
    tally.count_looked(&looked_up(&document_loop()));
    due.retain(|kind| kind.starts_with("8: branch, ") || kind.ends_with("in a group without"));
    assert_eq!(kinds(&tally), due);
    // It has branches too, and a group without targets.
    tally.count_looked(&looked_up(&mixed()));
    assert_eq!(kinds(&tally), Vec::<String>::new());
}

fn looked_up(module: &Module) -> Looked {
    let looked = Looked::of(module, &module.to_bytes(), &mut Random::for_case(SEED, 0));
    looked.expect("both answer alike")
}

#[test]
fn a_kind_of_limits_that_never_occurred_is_missing() {
    let mut tally = Tally::default();
    let mut due = missing_limits(&tally);
    let within = [
        "verify: on both not refused",
        "work out: on both not refused",
        "32 targets",
    ];
    let over = [
        "over by instructions",
        "verify: 17, on the box not",
        "work out: 17, on the box not",
        "work out: 17, by verify 7",
        "513 instructions",
    ];
    for (module, shown) in [
        (sized(32, 32), &within[..]),
        (sized(512, 1), &["512 instructions"]),
        (sized(511, 31), &[]),
        (sized(513, 32), &over),
        (sized(33, 33), &["over by targets", "33 targets"]),
        (sized(4096, 256), &["over by both"]),
    ] {
        count_limits(&mut tally, &module, module.to_bytes());
        // Beside each module's own counts there are so many cases that all occur.
        due.retain(|kind| !shown.contains(&kind.as_str()) && !kind.starts_with("limits "));
        assert_eq!(missing_limits(&tally), due, "{shown:?}");
    }
    for case in gate::cases() {
        count_limits(&mut tally, &document_loop(), case.file);
    }
    due.retain(|kind| kind.starts_with("run") || kind.starts_with("step"));
    assert_eq!(missing_limits(&tally), due);
}

fn missing_limits(tally: &Tally) -> Vec<String> {
    missing_of(tally, " (limits)")
}

/// Counts what a file shows by the limits of some cases.
fn count_limits(tally: &mut Tally, module: &Module, file: Vec<u8>) {
    let side = Side::HandWritten;
    let (read, verified) = (side.read(&file), side.verify(Limits::BOX, &file));
    let mut random = Random::for_case(SEED, 0);
    let worked = Worked::of(&file, verified, &mut random).expect("both answer alike");
    let generated = Generated {
        origin: Origin::Plate,
        module: module.clone(),
        file,
    };
    for _ in 0..100 {
        let limited = Limited::of(&generated, read, verified, &worked.outcome, &mut random);
        tally.count_limited(generated.origin, &limited.expect("all is as due"));
    }
}
