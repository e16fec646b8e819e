//! The code and its claims. Rules 8 to 13.

use super::{any_instruction, aside, index_with, one_with, Break};
use crate::assembler::{add, branch, check, copy, jump, jumpr};
use crate::encode::{op, Module, Target, ANYTHING, SIGN};
use crate::generate::access::{any_bytes, load_or_store};
use crate::random::Random;

pub const ALL: &[Break] = &[
    jump_aside,
    jump_aside,
    check_of_another,
    no_check,
    target_between,
    access_aside,
    access_aside,
    wider_access,
    sign_turned,
    constant_aside,
    narrower_claim,
    narrower_claim,
    wider_claim,
    no_target_here,
    no_target_here,
    last_falls_off,
    last_falls_off,
    last_falls_off,
    no_guard,
    neighbours_swapped,
    kind_turned,
];

/// A jump or branch to the index beside, past the last, or to one that has the right low bits only.
fn jump_aside(random: &mut Random, module: &mut Module) {
    let instructions = module.code.len() as u32;
    let choice = random.below(6);
    let any_index = random.below(module.code.len()) as u32;
    let beside = aside(random, 0);
    if let Some(jump) = one_with(random, module, &[op::JUMP, op::BRANCH]) {
        jump.imm = match choice {
            0 => jump.imm.wrapping_add(beside),
            1 => instructions,
            2 => jump.imm.wrapping_add(65_536),
            3 => u32::MAX,
            4 => 1 << 31,
            _ => any_index,
        };
    }
}

/// The check's register changes, or that of the jump after it.
fn check_of_another(random: &mut Random, module: &mut Module) {
    let other = random.register();
    if let Some(one) = one_with(random, module, &[op::CHECK, op::JUMPR]) {
        one.a = other;
    }
}

fn no_check(random: &mut Random, module: &mut Module) {
    let register = random.register();
    let replaced = random.pick(&[copy(register, register), add(register, 0), check(register)]);
    if let Some(at) = index_with(random, module, &[op::JUMPR]) {
        if at > 0 {
            module.code[at - 1] = replaced;
        }
    } else {
        *any_instruction(random, module) = jumpr(register);
    }
}

/// A target at a `jumpr`, or at any other index that has none.
fn target_between(random: &mut Random, module: &mut Module) {
    let jumpr = index_with(random, module, &[op::JUMPR]);
    let at = jumpr.unwrap_or_else(|| random.below(module.code.len()));
    let found = module
        .targets
        .binary_search_by_key(&at, |target| target.index.into());
    if let Err(number) = found {
        let target = if random.chance(50) {
            Target::indirect(at as u16)
        } else {
            Target::direct(at as u16, [ANYTHING; 8])
        };
        module.targets.insert(number, target);
    }
}

fn access_aside(random: &mut Random, module: &mut Module) {
    let distance = aside(random, 0);
    if let Some(access) = one_with(random, module, &[op::LOAD, op::STORE]) {
        access.imm = access.imm.wrapping_add(distance);
    }
}

fn wider_access(random: &mut Random, module: &mut Module) {
    if let Some(access) = one_with(random, module, &[op::LOAD, op::STORE]) {
        // From 130 on to 4, since above four bytes there is nothing to carry a sign into.
        access.w = match access.w {
            1 => 2,
            129 => 130,
            2 | 130 => 4,
            _ => 1,
        };
    }
}

/// A load carries the sign up where it did not, or the other way round; one of four bytes becomes a bad one.
fn sign_turned(random: &mut Random, module: &mut Module) {
    if let Some(load) = one_with(random, module, &[op::LOAD]) {
        load.w ^= SIGN;
    }
}

/// A constant of the arithmetic changes a little.
fn constant_aside(random: &mut Random, module: &mut Module) {
    let distance = aside(random, 0);
    let opcodes = [op::SET, op::ADDI, op::ANDI, op::SHR, op::SAR];
    if let Some(one) = one_with(random, module, &opcodes) {
        if one.op == op::SHR || one.op == op::SAR {
            one.w = one.w.wrapping_add(distance as u8) % 33;
        } else {
            one.imm = one.imm.wrapping_add(distance);
        }
    }
}

/// A range of a direct target's claim, by preference one that claims something.
fn claimed_range<'a>(random: &mut Random, module: &'a mut Module) -> Option<&'a mut (u32, u32)> {
    let direct = module
        .targets
        .iter_mut()
        .filter(|target| !target.is_indirect());
    let ranges = direct.flat_map(|target| target.claim.iter_mut());
    let mut claimed: Vec<&mut (u32, u32)> = ranges.filter(|range| **range != ANYTHING).collect();
    if claimed.is_empty() {
        return None;
    }
    let choice = random.below(claimed.len());
    Some(claimed.swap_remove(choice))
}

fn narrower_claim(random: &mut Random, module: &mut Module) {
    let low_end = random.chance(50);
    if let Some(range) = claimed_range(random, module) {
        if range.0 == range.1 {
            let moved = range.0.wrapping_add(if low_end { 1 } else { u32::MAX });
            *range = (moved, moved);
        } else if low_end {
            range.0 = range.0.wrapping_add(1);
        } else {
            range.1 = range.1.wrapping_sub(1);
        }
    }
}

fn wider_claim(random: &mut Random, module: &mut Module) {
    let low_end = random.chance(50);
    let distance = random.pick(&[1, 1, 2, 3, 4, 256]);
    if let Some(range) = claimed_range(random, module) {
        if low_end {
            range.0 = range.0.saturating_sub(distance);
        } else {
            range.1 = range.1.saturating_add(distance);
        }
    }
}

fn no_target_here(random: &mut Random, module: &mut Module) {
    if module.targets.len() > 1 {
        let number = 1 + random.below(module.targets.len() - 1);
        module.targets.remove(number);
    }
}

fn last_falls_off(random: &mut Random, module: &mut Module) {
    let (a, b) = (random.register(), random.register());
    let bytes = any_bytes(random);
    let imm = random.within(-4..=4) as i32;
    // A target, whose claim may be broken too, or perhaps none.
    let target = module.targets[random.below(module.targets.len())].index;
    let index = random.pick(&[target, target, target.wrapping_add(1)]);
    let last = match random.below(6) {
        0 => add(a, b),
        1 => copy(a, b),
        2 => check(a),
        3 => branch(a, b, random.below(3) as u8, index.into()),
        _ => load_or_store(random, a, b, bytes, imm),
    };
    if let Some(place) = module.code.last_mut() {
        *place = last;
    }
}

fn no_guard(random: &mut Random, module: &mut Module) {
    if let Some(one) = one_with(random, module, &[op::GUARD]) {
        *one = copy(one.a, one.a);
    } else {
        *any_instruction(random, module) = jump(0);
    }
}

fn neighbours_swapped(random: &mut Random, module: &mut Module) {
    if module.code.len() > 1 {
        let at = random.below(module.code.len() - 1);
        module.code.swap(at, at + 1);
    }
}

/// An indirect target becomes direct, or the other way round.
fn kind_turned(random: &mut Random, module: &mut Module) {
    if module.targets.len() > 1 {
        let number = 1 + random.below(module.targets.len() - 1);
        module.targets[number].kind ^= 1;
    }
}
