//! Files for the gate programs, each with the line that the box's must print and the one that the plate's must. The
//! first are document 01's known outcomes, then those of document 02's tickets 1 and 2; then come files that break the
//! rules of document 01's table one by one, and those of ticket 8: around the limits of the plate, and over them.

use crate::assembler::{addi, guard, halt, jump, jumpr, load, load_signed, store};
use crate::encode::{claim, Instruction, Module, Target};
use crate::rule_n::turned;
use crate::samples::{document_loop, largest, sized};

/// Standard input, and what the standard output of either program must then be, but for the newline.
pub struct Case {
    pub name: &'static str,
    pub file: Vec<u8>,
    pub on_box: &'static str,
    pub on_plate: &'static str,
}

pub fn cases() -> Vec<Case> {
    let mut cases = known_outcomes();
    cases.extend(turned().map(|one| case(one.name, one.module.to_bytes(), one.now)));
    cases.extend(signed_loads());
    cases.extend(refused_fields());
    cases.extend(trailing_bytes());
    cases.extend(refused_tables());
    cases.extend(refused_code());
    cases.extend(around_the_limits());
    cases.extend(bad_and_over());
    cases
}

/// A case that is the same on both.
fn case(name: &'static str, file: Vec<u8>, line: &'static str) -> Case {
    Case {
        name,
        file,
        on_box: line,
        on_plate: line,
    }
}

/// A case over the plate's limits that keeps rules 1 to 7.
fn over(name: &'static str, module: &Module, on_box: &'static str) -> Case {
    Case {
        on_plate: "refused 17 0",
        ..case(name, module.to_bytes(), on_box)
    }
}

/// A case with document 01's loop, changed.
fn changed(name: &'static str, line: &'static str, change: impl FnOnce(&mut Module)) -> Case {
    let mut module = document_loop();
    change(&mut module);
    case(name, module.to_bytes(), line)
}

fn known_outcomes() -> Vec<Case> {
    vec![
        changed("loop", "accepted 4 2", |_| ()),
        changed("guard-7", "accepted 4 2", |m| m.layout.guard = 7),
        changed("guard-6", "refused 10 1", |m| m.layout.guard = 6),
        changed("narrow-claim", "refused 11 3", |m| {
            m.targets[1].claim[1] = m.layout.region();
        }),
        case("empty", Vec::new(), "refused 1 0"),
        over("largest", &largest(), "accepted 4096 256"),
    ]
}

/// Document 01's loop with samples of one byte, and a claim that these lie in 0 to 255.
fn signed_loads() -> Vec<Case> {
    let with = |access: Instruction, guard: u32| {
        move |m: &mut Module| {
            m.code[1] = access;
            m.layout.guard = guard;
        }
    };
    let signed = load_signed(0, 1, 1, 0);
    vec![
        changed("signed-load", "accepted 4 2", with(signed, 256)),
        changed("signed-guard-4", "accepted 4 2", with(signed, 4)),
        changed("signed-guard-3", "refused 10 1", with(signed, 3)),
        changed(
            "signed-store",
            "refused 6 1",
            with(store(0, 1, 129, 0), 256),
        ),
        changed(
            "signed-word",
            "refused 6 1",
            with(load_signed(0, 1, 4, 0), 256),
        ),
        claimed("signed-claim", "refused 11 1", signed),
        claimed("unsigned-claim", "accepted 3 2", load(0, 1, 1, 0)),
    ]
}

/// A case with a claim of 0 to 255 for r0 after a load.
fn claimed(name: &'static str, line: &'static str, sample: Instruction) -> Case {
    let byte = Target::direct(2, claim(&[(0, (0, 255))]));
    let code = [guard(1), sample, halt()];
    let module = Module::known(&code, &[Target::indirect(0), byte]);
    case(name, module.to_bytes(), line)
}

/// The loop's fields begin at 0, 15 and 50.
fn refused_fields() -> Vec<Case> {
    let mut cut = document_loop().to_bytes();
    cut.pop();
    let mut wrong_tag = document_loop().to_bytes();
    wrong_tag[15] = 3;
    vec![
        case("cut", cut, "refused 1 50"),
        case("wrong-tag", wrong_tag, "refused 2 15"),
        changed("no-code", "refused 3 15", |m| m.code.clear()),
        changed("no-targets", "refused 3 50", |m| m.targets.clear()),
    ]
}

/// The loop's file has 189 bytes, the largest 50,197. A gate program reads at most 65,536, so that here what it
/// reads is the whole, just the whole, and less.
fn trailing_bytes() -> Vec<Case> {
    let longer = |module: Module, length: usize| {
        let mut file = module.to_bytes();
        file.resize(length, 0);
        file
    };
    let small = document_loop;
    let line = "refused 4 189";
    vec![
        case("one-byte-more", longer(small(), 190), line),
        case("just-read", longer(small(), 65_536), line),
        case("one-byte-unread", longer(small(), 65_537), line),
        case("long", longer(small(), 189 + 70_000), line),
        case("longest", longer(largest(), 50_198), "refused 4 50197"),
    ]
}

fn refused_tables() -> Vec<Case> {
    vec![
        changed("odd-size", "refused 5 0", |m| m.layout.size = 4095),
        changed("register-8", "refused 6 2", |m| m.code[2].a = 8),
        changed("opcode-16", "refused 6 3", |m| m.code[3].op = 16),
        changed("unused-byte", "refused 6 0", |m| m.code[0].w = 1),
        changed("index-twice", "refused 7 1", |m| m.targets[1].index = 0),
        changed("direct-first", "refused 7 0", |m| m.targets[0].kind = 0),
    ]
}

fn refused_code() -> Vec<Case> {
    vec![
        changed("no-target", "refused 8 3", |m| m.code[3] = jump(2)),
        changed("unchecked", "refused 9 3", |m| m.code[3] = jumpr(1)),
        changed("unreachable", "refused 12 4", |m| m.code.push(halt())),
        changed("falls-off", "refused 13 3", |m| m.code[3] = addi(1, 4)),
    ]
}

/// The longest module that the plate takes, and those with one more of something.
fn around_the_limits() -> Vec<Case> {
    let fits = |name, instructions, targets, line| {
        case(name, sized(instructions, targets).to_bytes(), line)
    };
    let over_by =
        |name, instructions, targets, line| over(name, &sized(instructions, targets), line);
    vec![
        fits("plate-512-1", 512, 1, "accepted 512 1"),
        fits("plate-32-32", 32, 32, "accepted 32 32"),
        fits("plate-512-32", 512, 32, "accepted 512 32"),
        over_by("plate-513-1", 513, 1, "accepted 513 1"),
        over_by("plate-33-33", 33, 33, "accepted 33 33"),
        over_by("plate-512-33", 512, 33, "accepted 512 33"),
        over_by("plate-513-32", 513, 32, "accepted 513 32"),
        over_by("plate-513-33", 513, 33, "accepted 513 33"),
    ]
}

/// 600 instructions and 40 targets that break a rule: up to 7 it is the plate's answer too, and from 8 on it is not.
fn bad_and_over() -> Vec<Case> {
    let with = |change: fn(&mut Module)| {
        let mut module = sized(600, 40);
        change(&mut module);
        module
    };
    let bad = |name, line, change| case(name, with(change).to_bytes(), line);
    let code = |name, line, change| over(name, &with(change), line);
    let mut longer = sized(600, 40).to_bytes();
    longer.push(0);
    let mut cut = sized(600, 40).to_bytes();
    cut.pop();
    let mut wrong_tag = sized(600, 40).to_bytes();
    wrong_tag[18 + 8 * 600] = 2;
    vec![
        case("over-cut", cut, "refused 1 4818"),
        case("over-wrong-tag", wrong_tag, "refused 2 4818"),
        case("over-longer", longer, "refused 4 7541"),
        bad("over-4097", "refused 3 15", |m| {
            m.code.resize(4097, halt());
        }),
        bad("over-257", "refused 3 4818", |m| {
            m.targets.resize(257, Target::indirect(599));
        }),
        bad("over-odd-size", "refused 5 0", |m| m.layout.size = 4095),
        bad("over-register-8", "refused 6 599", |m| m.code[599].a = 8),
        bad("over-index-600", "refused 7 39", |m| {
            m.targets[39].index = 600;
        }),
        code("over-no-target", "refused 8 598", |m| {
            m.code[598] = jump(40)
        }),
        code("over-unchecked", "refused 9 599", |m| {
            m.code[599] = jumpr(1)
        }),
        code("over-wild", "refused 10 598", |m| {
            m.code[598] = load(0, 1, 4, 0);
        }),
        code("over-broken-claim", "refused 11 38", |m| {
            m.targets[39].claim = claim(&[(2, (0, 9))]);
        }),
        code("over-unreachable", "refused 12 600", |m| {
            m.code.push(halt())
        }),
        code("over-falls-off", "refused 13 599", |m| {
            m.code[599] = addi(1, 4)
        }),
    ]
}
