//! Modules as tables, and the bytes of their files. Nothing is checked: wrong modules are wanted too.

/// Base, size and guard.
#[derive(Clone, Copy, Debug, PartialEq, Eq)]
pub struct Layout {
    pub base: u32,
    pub size: u32,
    pub guard: u32,
}

impl Layout {
    /// The layout of document 01's known outcomes.
    pub const KNOWN: Layout = Layout {
        base: 0x2000_0000,
        size: 4096,
        guard: 256,
    };

    /// The region's first address, DB.
    pub const fn first(self) -> u32 {
        self.base
    }

    /// The region's last address, DL.
    pub const fn last(self) -> u32 {
        self.base.wrapping_add(self.size.wrapping_sub(1))
    }

    /// The region as a range.
    pub fn region(self) -> Range {
        (self.first(), self.last())
    }
}

/// A lowest and a highest value.
pub type Range = (u32, u32);

/// The range of every word.
pub const ANYTHING: Range = (0, u32::MAX);

/// An instruction's eight bytes, used or not.
#[derive(Clone, Copy, Debug, PartialEq, Eq)]
pub struct Instruction {
    pub op: u8,
    pub a: u8,
    pub b: u8,
    pub w: u8,
    pub imm: u32,
}

impl Instruction {
    /// How many bytes it moves, if it is a load or store: for widths 129 and 130 of document 02's ticket 2 these are
    /// 1 and 2.
    pub const fn bytes(self) -> u8 {
        self.w & !SIGN
    }

    /// As it stands in a file.
    pub fn to_bytes(self) -> [u8; 8] {
        let Instruction { op, a, b, w, imm } = self;
        let [i, j, k, l] = imm.to_le_bytes();
        [op, a, b, w, i, j, k, l]
    }

    /// Whether it is a load that carries the sign up, of any width.
    pub const fn is_signed_load(self) -> bool {
        self.op == op::LOAD && self.w & SIGN != 0
    }
}

/// What a load's w has beside its bytes if it carries the sign up.
pub const SIGN: u8 = 128;

/// The opcodes of document 01's table.
pub mod op {
    pub const HALT: u8 = 0;
    pub const SET: u8 = 1;
    pub const COPY: u8 = 2;
    pub const ADD: u8 = 3;
    pub const ADDI: u8 = 4;
    pub const SUB: u8 = 5;
    pub const ANDI: u8 = 6;
    pub const GUARD: u8 = 7;
    pub const SHR: u8 = 8;
    pub const SAR: u8 = 9;
    pub const LOAD: u8 = 10;
    pub const STORE: u8 = 11;
    pub const JUMP: u8 = 12;
    pub const BRANCH: u8 = 13;
    pub const CHECK: u8 = 14;
    pub const JUMPR: u8 = 15;
}

/// The tests of a branch.
pub mod test {
    pub const EQUAL: u8 = 0;
    pub const BELOW: u8 = 1;
    pub const SIGNED_BELOW: u8 = 2;
}

/// A target's fields; `zero` is its unused byte.
#[derive(Clone, Copy, Debug, PartialEq, Eq)]
pub struct Target {
    pub index: u16,
    pub kind: u8,
    pub zero: u8,
    pub claim: [Range; 8],
}

/// A claim that names ranges for some registers.
pub fn claim(ranges: &[(usize, Range)]) -> [Range; 8] {
    let mut claim = [ANYTHING; 8];
    for &(register, range) in ranges {
        claim[register] = range;
    }
    claim
}

/// The kinds of a target; document 01's words are "inner" and "open".
pub const DIRECT: u8 = 0;
pub const INDIRECT: u8 = 1;

impl Target {
    pub fn indirect(index: u16) -> Target {
        Target {
            index,
            kind: INDIRECT,
            zero: 0,
            claim: [ANYTHING; 8],
        }
    }

    pub fn direct(index: u16, claim: [Range; 8]) -> Target {
        Target {
            index,
            kind: DIRECT,
            zero: 0,
            claim,
        }
    }

    pub fn is_indirect(&self) -> bool {
        self.kind == INDIRECT
    }
}

/// A module's three tables.
#[derive(Clone, Debug, PartialEq, Eq)]
pub struct Module {
    pub layout: Layout,
    pub code: Vec<Instruction>,
    pub targets: Vec<Target>,
}

impl Module {
    /// A module in the layout of document 01's known outcomes.
    pub fn known(code: &[Instruction], targets: &[Target]) -> Module {
        Module {
            layout: Layout::KNOWN,
            code: code.to_vec(),
            targets: targets.to_vec(),
        }
    }

    /// The module's file. Lengths are cut to 16 bits, as the file has no more for them.
    pub fn to_bytes(&self) -> Vec<u8> {
        let Layout { base, size, guard } = self.layout;
        let mut file = Vec::new();
        put_field(&mut file, 1, |value| {
            for word in [base, size, guard] {
                value.extend(word.to_le_bytes());
            }
        });
        put_field(&mut file, 2, |value| {
            for instruction in &self.code {
                value.extend(instruction.to_bytes());
            }
        });
        put_field(&mut file, 3, |value| {
            for target in &self.targets {
                put_target(value, target);
            }
        });
        file
    }
}

/// Where the instructions stand in a file that no rule before 6 refuses.
pub fn code_bounds(file: &[u8]) -> std::ops::Range<usize> {
    // Behind the layout's field, and a header whose last two bytes are their length.
    let begin = 3 + 12 + 3;
    let length = u16::from_le_bytes([file[begin - 2], file[begin - 1]]);
    begin..begin + usize::from(length)
}

/// Where the targets stand in a file that no rule before 5 refuses: behind the instructions and a header.
pub fn target_bounds(file: &[u8]) -> std::ops::Range<usize> {
    code_bounds(file).end + 3..file.len()
}

fn put_field(file: &mut Vec<u8>, tag: u8, put_value: impl FnOnce(&mut Vec<u8>)) {
    let mut value = Vec::new();
    put_value(&mut value);
    file.push(tag);
    file.extend((value.len() as u16).to_le_bytes());
    file.extend(value);
}

fn put_target(value: &mut Vec<u8>, target: &Target) {
    value.extend(target.index.to_le_bytes());
    value.extend([target.kind, target.zero]);
    for (lowest, highest) in target.claim {
        value.extend(lowest.to_le_bytes());
        value.extend(highest.to_le_bytes());
    }
}
