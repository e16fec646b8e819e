//! Refusals 8 to 13: the code and its claims.

use crate::both::verify;
use modules::assembler::*;
use modules::encode::{claim, test, Instruction, Module, Range, Target};
use sides::Verdict;

/// The verdict on code with an indirect target at 0 and others.
fn judged(code: &[Instruction], others: &[Target]) -> Verdict {
    let targets = [&[Target::indirect(0)], others].concat();
    verify(&Module::known(code, &targets).to_bytes())
}

/// A direct target that claims a range for one register.
fn narrow(index: u16, register: usize, range: Range) -> Target {
    Target::direct(index, claim(&[(register, range)]))
}

#[test]
fn no_target() {
    assert_eq!(judged(&[set(0, 1), jump(1)], &[]), Err((8, 1)));
    assert_eq!(judged(&[set(0, 1), jump(1 << 31)], &[]), Err((8, 1)));
    let branching = [branch(0, 1, test::SIGNED_BELOW, 1), halt()];
    assert_eq!(judged(&branching, &[]), Err((8, 0)));
}

#[test]
fn unchecked_jump() {
    assert_eq!(judged(&[jumpr(0)], &[]), Err((9, 0)));
    assert_eq!(judged(&[check(1), jumpr(0)], &[]), Err((9, 1)));
    assert_eq!(judged(&[check(0), jumpr(0)], &[]), Ok([2, 1]));
    let between = Target::direct(1, claim(&[]));
    assert_eq!(judged(&[check(0), jumpr(0)], &[between]), Err((9, 1)));
}

#[test]
fn wild_access() {
    assert_eq!(judged(&[load(0, 1, 1, 0), halt()], &[]), Err((10, 0)));
    assert_eq!(judged(&[store(0, 1, 1, 0), halt()], &[]), Err((10, 0)));
}

#[test]
fn broken_claim() {
    let one = narrow(2, 0, (1, 1));
    let falling = [set(0, 1), set(0, 2), halt()];
    assert_eq!(judged(&falling, &[one]), Err((11, 1)));
    let jumping = [set(0, 2), jump(2), halt()];
    assert_eq!(judged(&jumping, &[one]), Err((11, 1)));
    let branching = [set(0, 2), branch(0, 1, test::BELOW, 3), halt(), halt()];
    let above = |lowest| narrow(3, 1, (lowest, u32::MAX));
    assert_eq!(judged(&branching, &[above(4)]), Err((11, 1)));
    assert_eq!(judged(&branching, &[above(3)]), Ok([4, 2]));
}

#[test]
fn unreachable() {
    assert_eq!(judged(&[halt(), halt()], &[]), Err((12, 1)));
    assert_eq!(judged(&[jump(0), jumpr(0)], &[]), Err((12, 1)));
    assert_eq!(judged(&[check(0), jumpr(0), halt()], &[]), Err((12, 2)));
}

/// Behind 10 and 8, and before 11.
#[test]
fn falls_off() {
    assert_eq!(judged(&[set(0, 1)], &[]), Err((13, 0)));
    assert_eq!(judged(&[check(0)], &[]), Err((13, 0)));
    assert_eq!(judged(&[load(0, 1, 1, 0)], &[]), Err((10, 0)));
    assert_eq!(judged(&[branch(0, 1, test::EQUAL, 7)], &[]), Err((8, 0)));
    let one = narrow(1, 0, (1, 1));
    let back = branch(2, 3, test::EQUAL, 1);
    assert_eq!(judged(&[set(0, 1), back], &[one]), Err((13, 1)));
    let broken = [set(0, 1), set(0, 2), back];
    assert_eq!(judged(&broken, &[one]), Err((13, 2)));
}
