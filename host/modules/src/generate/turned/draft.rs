//! Code under construction, whose ranges are followed by both rules N.

use super::draw::Access;
use crate::assembler::*;
use crate::encode::{Instruction, Layout, Module, ANYTHING};
use crate::generate::access::any_load;
use crate::generate::body::arithmetic;
use crate::random::Random;
use crate::ranges::{after, after_branch, displacements, Ranges, RuleN};

pub struct Draft {
    pub layout: Layout,
    pub code: Assembler,
    /// The ranges after what it has, by rule N as it is.
    pub now: Ranges,
    /// The same by rule N as it was.
    pub earlier: Ranges,
}

/// A register other than those named.
pub fn register_but(random: &mut Random, spared: &[u8]) -> u8 {
    loop {
        let register = random.register();
        if !spared.contains(&register) {
            return register;
        }
    }
}

impl Draft {
    /// An indirect target and any code; then a direct target with this claim, which the code before it keeps.
    pub fn begin(random: &mut Random, layout: Layout, claim: Ranges) -> Draft {
        let mut code = Assembler::new(layout);
        code.indirect("start");
        for _ in 0..random.below(12) {
            code.put(&[arithmetic(random, &claim)]);
        }
        for (register, (lowest, highest)) in (0..).zip(claim) {
            if (lowest, highest) != ANYTHING {
                let any = random.within(lowest.into()..=highest.into()) as u32;
                code.put(&[set(register, random.pick(&[lowest, highest, any]))]);
            }
        }
        code.direct("claimed", claim);
        Draft {
            layout,
            code,
            now: claim,
            earlier: claim,
        }
    }

    pub fn put(&mut self, instruction: Instruction) {
        self.now = after(RuleN::Now, self.layout, self.now, instruction);
        self.earlier = after(RuleN::Earlier, self.layout, self.earlier, instruction);
        self.code.put(&[instruction]);
    }

    /// Puts a load or store, if it keeps rule 10 by both, with some arithmetic before it. The registers in `spared`
    /// are not written.
    pub fn access(&mut self, random: &mut Random, access: Access, spared: &[u8]) -> Option<()> {
        self.idle(random, spared);
        self.allows(access).then_some(())?;
        let Access { b, bytes, imm } = access;
        let made = if random.chance(50) {
            store(random.register(), b, bytes, imm)
        } else {
            let a = register_but(random, spared);
            any_load(random, a, b, bytes, imm)
        };
        self.put(made);
        Some(())
    }

    /// Whether an access keeps rule 10 by both.
    pub fn allows(&self, access: Access) -> bool {
        let Access { b, bytes, imm } = access;
        [&self.now, &self.earlier].into_iter().all(|ranges| {
            displacements(self.layout, ranges[usize::from(b)], bytes)
                .is_some_and(|(lowest, highest)| (lowest..=highest).contains(&imm))
        })
    }

    fn idle(&mut self, random: &mut Random, spared: &[u8]) {
        for _ in 0..random.below(3) {
            let made = arithmetic(random, &self.now);
            if !spared.contains(&made.a) {
                self.put(made);
            }
        }
    }

    /// Moves a pointer, or copies it, or leaves it.
    pub fn carry(&mut self, random: &mut Random, pointer: u8) {
        match random.below(4) {
            0 => self.put(addi(pointer, random.within(-300..=300) as i32)),
            1 => self.put(copy(random.register(), pointer)),
            _ => {}
        }
    }

    /// Puts a branch to the first target, which claims nothing, and goes on where it isn't taken.
    pub fn pass(&mut self, branch: Instruction) {
        self.now = after_branch(self.now, branch).1;
        self.earlier = after_branch(self.earlier, branch).1;
        self.code.put_to(branch, "start");
    }

    /// Ends with a jump to the direct target.
    pub fn again(mut self) -> Module {
        self.code.put_to(jump(0), "claimed");
        self.code.finish()
    }
}
