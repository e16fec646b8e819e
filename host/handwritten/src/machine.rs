//! The stepping machine.

use crate::decoder::Decoder;
use crate::lookup::Lookup;
use crate::reader::{is_indirect, Instruction, Parts, Target};
use crate::{Ending, Layout, Machine, Run};

/// What no step changes: the layout and where transfers may go.
struct Ground<'a> {
    layout: Layout,
    targets: &'a [Target],
    lookup: Lookup,
}

impl Ground<'_> {
    fn is_target(&self, at: u32) -> bool {
        self.lookup.find(at).is_some()
    }

    fn is_indirect_target(&self, at: u32) -> bool {
        let rank = self.lookup.find(at);
        let target = rank.and_then(|rank| self.targets.get(rank));
        target.is_some_and(is_indirect)
    }

    /// How an access outside the region ends.
    #[cold]
    fn missed(&self, address: u32, bytes: u8) -> Ending {
        let Layout { base, size, guard } = self.layout;
        let reach = size + 2 * guard - u32::from(bytes);
        if address.wrapping_sub(base - guard) <= reach {
            Ending::Trapped
        } else {
            Ending::Violated
        }
    }

    /// How the run ends where it leaves the window, and the pc it ends at.
    #[cold]
    #[inline(never)]
    fn leave(&self, parts: &Parts, registers: &[u32; 8], pc: usize, left: u64) -> (Ending, usize) {
        let Some(instruction) = parts.code.get(pc) else {
            // Back to a last branch that wasn't taken.
            return (Ending::Violated, pc - 1);
        };
        if left == 0 {
            return (Ending::OutOfBudget, pc);
        }
        // The last instruction, which can only go on to the next index.
        let Layout { base, size, .. } = self.layout;
        let ins = Decoder(instruction);
        let (address, bytes) = (registers[ins.b()].wrapping_add(ins.imm()), ins.bytes());
        let ending = match ins.op() {
            10 | 11 if address.wrapping_sub(base) > size - u32::from(bytes) => {
                self.missed(address, bytes)
            }
            14 if !self.is_indirect_target(registers[ins.a()]) => Ending::Denied,
            _ => Ending::Violated,
        };
        (ending, pc)
    }
}

/// Where the run is in the code.
struct Cursor<'a> {
    body: &'a [Instruction],
    /// The part of the body that the budget allows, so that one bound serves for both.
    window: &'a [Instruction],
    pc: usize,
    /// The index at which the budget ends if no transfer comes, without the carry where it passes 64 bits.
    limit: u64,
}

impl<'a> Cursor<'a> {
    #[inline(always)]
    fn new(body: &'a [Instruction], pc: usize, left: u64) -> Self {
        let end = (pc as u64).saturating_add(left);
        Cursor {
            body,
            window: &body[..end.min(body.len() as u64) as usize],
            pc,
            limit: (pc as u64).wrapping_add(left),
        }
    }

    /// How many steps are left.
    fn left(&self) -> u64 {
        self.limit.wrapping_sub(self.pc as u64)
    }

    /// Makes the step at pc a transfer; what is left of the budget goes with it.
    #[inline(always)]
    fn transfer(&mut self, aim: u32) {
        *self = Cursor::new(self.body, aim as usize, self.left() - 1);
    }
}

fn holds(w: u8, a: u32, b: u32) -> bool {
    match w {
        0 => a == b,
        1 => a < b,
        _ => (a as i32) < b as i32,
    }
}

fn load<const W: usize>(region: &[u8], at: usize) -> Option<[u8; W]> {
    // An end that wraps lies below the start, and then there is no such part.
    region.get(at..at.wrapping_add(W))?.try_into().ok()
}

fn store<const W: usize>(region: &mut [u8], at: usize, value: [u8; W]) -> Option<()> {
    let place = region.get_mut(at..at.wrapping_add(W))?;
    place.copy_from_slice(&value);
    Some(())
}

// Apart from its caller, whose values would crowd the loop's out of the processor's registers.
#[inline(never)]
pub(crate) fn run(parts: &Parts, machine: &mut Machine, region: &mut [u8], budget: u64) -> Run {
    let Layout { base, size, .. } = parts.layout;
    let mut ground = Ground {
        layout: parts.layout,
        targets: parts.targets,
        lookup: Lookup::EMPTY,
    };
    ground.lookup.mark(parts);
    // A last instruction that can only go on to the next index does nothing but end the run.
    // Left out here, it needs no looking for at each step.
    let body = match parts.code {
        [body @ .., last] if !matches!(last[0], 0 | 12 | 13 | 15) => body,
        code => code,
    };
    let mut registers = machine.registers;
    let mut cursor = Cursor::new(body, usize::from(machine.pc), budget);
    let ending = loop {
        let Some(instruction) = cursor.window.get(cursor.pc) else {
            let (ending, pc) = ground.leave(parts, &registers, cursor.pc, cursor.left());
            cursor.pc = pc;
            break ending;
        };
        // Each kind takes its own operands from the bytes, and no others.
        let ins = Decoder(instruction);
        match ins.op() {
            0 => break Ending::Halted,
            1 => registers[ins.a()] = ins.imm(),
            2 => registers[ins.a()] = registers[ins.b()],
            3 => registers[ins.a()] = registers[ins.a()].wrapping_add(registers[ins.b()]),
            4 => registers[ins.a()] = registers[ins.a()].wrapping_add(ins.imm()),
            5 => registers[ins.a()] = registers[ins.a()].wrapping_sub(registers[ins.b()]),
            6 => registers[ins.a()] &= ins.imm(),
            // The base is a multiple of the size.
            7 => registers[ins.a()] = base | registers[ins.a()] & (size - 1),
            8 => registers[ins.a()] >>= ins.w() & 31,
            9 => registers[ins.a()] = ((registers[ins.a()] as i32) >> (ins.w() & 31)) as u32,
            10 => {
                let address = registers[ins.b()].wrapping_add(ins.imm());
                let at = address.wrapping_sub(base) as usize;
                let value = match ins.w() {
                    1 => region.get(at).map(|&byte| u32::from(byte)),
                    2 => load(region, at).map(|bytes| u32::from(u16::from_le_bytes(bytes))),
                    4 => load(region, at).map(u32::from_le_bytes),
                    // These casts carry the sign up.
                    129 => load(region, at).map(|bytes| i8::from_le_bytes(bytes) as u32),
                    _ => load(region, at).map(|bytes| i16::from_le_bytes(bytes) as u32),
                };
                let Some(value) = value else {
                    break ground.missed(address, ins.bytes());
                };
                registers[ins.a()] = value;
            }
            11 => {
                let address = registers[ins.b()].wrapping_add(ins.imm());
                let at = address.wrapping_sub(base) as usize;
                let value = registers[ins.a()].to_le_bytes();
                let done = match ins.w() {
                    1 => store(region, at, [value[0]]),
                    2 => store(region, at, [value[0], value[1]]),
                    _ => store(region, at, value),
                };
                if done.is_none() {
                    break ground.missed(address, ins.bytes());
                }
            }
            13 if !holds(ins.w(), registers[ins.a()], registers[ins.b()]) => {}
            12 | 13 => {
                if !ground.is_target(ins.imm()) {
                    break Ending::Violated;
                }
                cursor.transfer(ins.imm());
                continue;
            }
            14 => {
                if !ground.is_indirect_target(registers[ins.a()]) {
                    break Ending::Denied;
                }
            }
            _ => {
                let aim = registers[ins.a()];
                if !ground.is_indirect_target(aim) {
                    break Ending::Violated;
                }
                cursor.transfer(aim);
                continue;
            }
        }
        cursor.pc += 1;
    };
    machine.registers = registers;
    machine.pc = cursor.pc as u16;
    Run {
        ending,
        steps: budget - cursor.left() + u64::from(ending != Ending::OutOfBudget),
    }
}
