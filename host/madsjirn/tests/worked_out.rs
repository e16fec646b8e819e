//! Document 02's ticket 3: claims that are worked out, which "ignores its inner doors' claims and writes new ones over
//! them; a refusal leaves the bytes as they came".

use madsjirn::{verify, work_out, Ending, Limits, Machine, Rule};

/// A claim for all registers that rule 7 refuses where it counts.
const CROSSED: [[u32; 2]; 8] = [[u32::MAX, 0]; 8];

/// Document 01's loop, with guard zones of so many bytes and a claim at its direct target.
fn file(guard: u32, claim: [[u32; 2]; 8]) -> Vec<u8> {
    let mut file = vec![0x01, 12, 0];
    for word in [0x2000_0000, 4096, guard] {
        file.extend(word.to_le_bytes());
    }
    file.extend([0x02, 4 * 8, 0]);
    file.extend([7, 1, 0, 0, 0, 0, 0, 0]); // 0 guard r1
    file.extend([10, 0, 1, 4, 0, 0, 0, 0]); // 1 load r0, r1, width 4, imm 0
    file.extend([4, 1, 0, 0, 4, 0, 0, 0]); // 2 addi r1, 4
    file.extend([12, 0, 0, 0, 1, 0, 0, 0]); // 3 jump 1
    file.extend([0x03, 2 * 68, 0]);
    for (index, kind, claim) in [(0, 1, [[0, u32::MAX]; 8]), (1, 0, claim)] {
        file.extend([index, 0, kind, 0]);
        file.extend(claim.into_iter().flatten().flat_map(u32::to_le_bytes));
    }
    file
}

#[test]
fn accepted() {
    let mut due = [[0, u32::MAX]; 8];
    due[1] = [0x2000_0000, 0x2000_1000];
    let mut file_then = file(4, CROSSED);
    let refused = verify(Limits::BOX, &file_then).expect_err("the claim is none");
    assert_eq!((refused.rule, refused.place), (Rule::BadTarget, 1));

    let module = work_out(Limits::BOX, &mut file_then).expect("the module is accepted");
    assert_eq!((module.instructions(), module.targets()), (4, 2));
    assert_eq!(module.file(), file(4, due));
    assert_eq!(verify(Limits::BOX, module.file()), Ok(module));
    // What is promised of accepted modules holds for it.
    let mut machine = Machine::default();
    let run = module.run(&mut machine, &mut [0; 4096], 0, 10_000);
    let run = run.expect("the run is made");
    assert_eq!((run.ending, run.steps), (Ending::Trapped, 3_074));
}

#[test]
fn refused() {
    let mut wild = file(3, CROSSED);
    let mut bad = file(4, CROSSED);
    bad[26] = 16;
    let mut truncated = file(4, CROSSED);
    truncated.pop();
    for (file, rule, place) in [
        (&mut wild, Rule::WildAccess, 1),
        (&mut bad, Rule::BadInstruction, 1),
        (&mut truncated, Rule::Truncated, 50),
    ] {
        let before = file.clone();
        let refusal = work_out(Limits::BOX, file).expect_err("the module is refused");
        assert_eq!((refusal.rule, refusal.place), (rule, place));
        assert_eq!(*file, before);
    }
}
