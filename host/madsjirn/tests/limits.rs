//! Document 02's ticket 8: "it holds only 512 instructions and 32 doors. Plate and box keep their own limits; the
//! verdict on a module within both limits is the same for both."

use madsjirn::assembly::*;
use madsjirn::{
    read, run, step, verify, work_out, write, Ending, Layout, Limits, Machine, Refusal, Rule, Run,
    Target, LONGEST_FILE,
};

const OVER: Refusal = Refusal {
    rule: Rule::OverPlate,
    place: 0,
};

/// Additions to r0 and a halt, with targets at the first of them that claim anything.
fn file(instructions: usize, targets: u32) -> Vec<u8> {
    let layout = Layout {
        base: 0x2000_0000,
        size: 256,
        guard: 0,
    };
    let mut code = vec![addi(R0, 1); instructions];
    code[instructions - 1] = halt();
    let direct = (1..targets).map(Target::direct);
    let targets: Vec<Target> = [Target::indirect(0)].into_iter().chain(direct).collect();
    let mut file = vec![0; LONGEST_FILE];
    let length = write(layout, &code, &targets, &mut file).expect("the tables are good");
    file.truncate(length);
    file
}

/// What each call answers; all but the run of a module that is not refused are looked at here.
fn answers(limits: Limits, file: &[u8]) -> Result<Run, Refusal> {
    let mut copied = file.to_vec();
    let verified = verify(limits, file);
    let worked_out = work_out(limits, &mut copied);
    assert_eq!(worked_out, verified);
    let mut machine = Machine::default();
    let mut memory = [0x5a; 256];
    let stepped = step(limits, file, &mut machine, &mut memory, 0);
    let ran = run(limits, file, &mut machine, &mut memory, 0, u64::MAX);
    assert_eq!(memory, [0x5a; 256]);
    match verified {
        Ok(verified) => {
            assert_eq!((verified.limits(), verified.file()), (limits, file));
            let module = read(file).expect("the module is readable");
            let counts = (verified.instructions(), verified.targets());
            assert_eq!(counts, (module.instructions, module.targets));
            assert_eq!(stepped.map(|run| run.ending), Ok(Ending::OutOfBudget));
        }
        Err(refused) => {
            assert_eq!((stepped, ran), (Err(refused), Err(refused)));
            assert_eq!(machine, Machine::default());
        }
    }
    assert_eq!(copied, file);
    ran
}

#[test]
fn the_plate_and_the_box() {
    let all = |steps| {
        Ok(Run {
            ending: Ending::Halted,
            steps,
        })
    };
    for (instructions, targets, fits) in [
        (512, 32, true),
        (32, 32, true),
        (513, 32, false),
        (512, 33, false),
        (513, 33, false),
        (33, 33, false),
        (4096, 256, false),
    ] {
        let file = file(instructions, targets);
        let due = all(instructions as u64 - 1);
        assert_eq!(answers(Limits::BOX, &file), due);
        assert_eq!(
            answers(Limits::PLATE, &file),
            if fits { due } else { Err(OVER) }
        );
    }
    assert_eq!(file(512, 32).len(), 6_293);
    assert_eq!(OVER.to_string(), "refused 17 0: over plate");
}

#[test]
fn any_numbers() {
    let module = file(9, 4);
    let limits = |instructions, targets| Limits {
        instructions,
        targets,
    };
    for fits in [limits(9, 4), limits(u32::MAX, 4), limits(9, u32::MAX)] {
        assert!(answers(fits, &module).is_ok(), "{fits:?}");
    }
    for over in [limits(8, 4), limits(9, 3), limits(4, 9), limits(0, 0)] {
        assert_eq!(answers(over, &module), Err(OVER), "{over:?}");
    }
}

/// Runs of what was judged are made by the limits that it was judged by.
#[test]
fn a_verified_module_keeps_its_limits() {
    for limits in [Limits::BOX, Limits::PLATE] {
        let mut file = file(512, 32);
        let module = work_out(limits, &mut file).expect("the module is accepted");
        assert_eq!(module.limits(), limits);
        let mut machine = Machine::default();
        let first = module.step(&mut machine, &mut [0; 256], 0);
        assert_eq!(first.map(|run| run.steps), Ok(1));
        let rest = module.run(&mut machine, &mut [0; 256], 0, 10_000);
        assert_eq!(rest.map(|run| run.steps), Ok(511));
        let refused = module.run(&mut machine, &mut [0; 255], 0, 1);
        assert_eq!(refused.map_err(|refusal| refusal.rule), Err(Rule::NoRoom));
    }
}
