//! What document 02's ticket 4 is compared on: single loads and stores beside every end of region and guard zones, in
//! regions at both ends of the address space too. What each does is told here by exact sums of 64 bits.

use modules::assembler::{halt, load, load_signed, store};
use modules::encode::{op, Instruction, Layout, Module, Target};
use sides::ending::{OUT_OF_BUDGET, TRAPPED, VIOLATED};
use sides::{Limits, Machine, Side};
use std::collections::BTreeMap;
use std::fmt;

/// Base, size and guard. The zones of all but the last three begin at 0 or end at 2^32.
const LAYOUTS: [[u32; 3]; 13] = [
    [0, 256, 0],
    [0, 65_536, 0],
    [256, 256, 256],
    [4096, 256, 4096],
    [4096, 4096, 4096],
    [0xFFFF_FF00, 256, 0],
    [0xFFFF_0000, 65_536, 0],
    [0xFFFF_FE00, 256, 256],
    [0xFFFF_EF00, 256, 4096],
    [0xFFFF_E000, 4096, 4096],
    [0x7FFF_FF00, 256, 3],
    [0x8000_0000, 256, 0],
    [0x2000_0000, 65_536, 4096],
];

/// Where the region begins in memory.
const OFFSET: usize = 16;

/// One load or store at an address.
pub struct Access {
    layout: Layout,
    instruction: Instruction,
    address: u32,
}

/// What is left of a step: the ending's number, the machine and the memory.
type Left = (u32, Machine, Vec<u8>);

impl Access {
    /// Every width at every address near an end of the region or of its zones, or near 0.
    pub fn all() -> impl Iterator<Item = Access> {
        LAYOUTS.into_iter().flat_map(|[base, size, guard]| {
            let layout = Layout { base, size, guard };
            let end = base.wrapping_add(size);
            let ends = [
                base,
                end,
                base.wrapping_sub(guard),
                end.wrapping_add(guard),
                0,
            ];
            let near = |end: u32| (-6..=6).map(move |by| end.wrapping_add_signed(by));
            ends.into_iter().flat_map(near).flat_map(move |address| {
                instructions().into_iter().map(move |instruction| Access {
                    layout,
                    instruction,
                    address,
                })
            })
        })
    }

    /// Both sides make it as exact sums say, or what differs.
    pub fn compare(&self, tally: &mut Accesses) -> Result<(), String> {
        let due = self.by_sums();
        for side in Side::BOTH {
            let left = self.made_by(side)?;
            if left != due {
                let name = side.name();
                let (ending, machine, memory) = left;
                let same = if memory == due.2 { "the same" } else { "other" };
                return Err(format!(
                    "{self}\n{name}: ending {ending}, {machine:?}, {same} memory\nby sums: ending {}, {:?}",
                    due.0, due.1
                ));
            }
        }
        tally.count(self.instruction.bytes(), due.0);
        Ok(())
    }

    fn made_by(&self, side: Side) -> Result<Left, String> {
        let (mut machine, mut memory) = self.before();
        let code = [self.instruction, halt()];
        let module = Module {
            layout: self.layout,
            code: code.to_vec(),
            targets: vec![Target::indirect(0)],
        };
        let file = module.to_bytes();
        let ran = side.run(Limits::BOX, &file, &mut machine, &mut memory, OFFSET, 1);
        match ran {
            Ok((ending, 1)) => Ok((ending, machine, memory)),
            _ => Err(format!("{self}\n{}: {ran:?}", side.name())),
        }
    }

    /// The address in r1, other bytes at each place of memory, and some around the region.
    fn before(&self) -> (Machine, Vec<u8>) {
        let mut machine = Machine::default();
        machine.registers[1] = self.address;
        machine.registers[2] = 0xA1B2_C3D4;
        let length = self.layout.size as usize + 2 * OFFSET;
        let memory = (0..length).map(|at| (at * 37 + at / 256) as u8).collect();
        (machine, memory)
    }

    fn by_sums(&self) -> Left {
        let Layout { base, size, guard } = self.layout;
        let [base, size, guard] = [base, size, guard].map(u64::from);
        let from = u64::from(self.address);
        let to = from + u64::from(self.instruction.bytes());
        let (mut machine, mut memory) = self.before();
        if base <= from && to <= base + size {
            let place = |address: u64| OFFSET + (address - base) as usize;
            let bytes = &mut memory[place(from)..place(to)];
            if self.instruction.op == op::LOAD {
                machine.registers[2] = number(bytes, self.instruction.is_signed_load());
            } else {
                let value = machine.registers[2].to_le_bytes();
                bytes.copy_from_slice(&value[..bytes.len()]);
            }
            machine.pc = 1;
            return (OUT_OF_BUDGET, machine, memory);
        }
        let trapped = base - guard <= from && to <= base + size + guard;
        (if trapped { TRAPPED } else { VIOLATED }, machine, memory)
    }
}

/// A load or store of r2 through r1 for each width.
fn instructions() -> [Instruction; 8] {
    [
        load(2, 1, 1, 0),
        load(2, 1, 2, 0),
        load(2, 1, 4, 0),
        load_signed(2, 1, 1, 0),
        load_signed(2, 1, 2, 0),
        store(2, 1, 1, 0),
        store(2, 1, 2, 0),
        store(2, 1, 4, 0),
    ]
}

/// The number of some bytes, with their sign carried up or not.
fn number(bytes: &[u8], signed: bool) -> u32 {
    let fill = if signed && bytes[bytes.len() - 1] >= 128 {
        255
    } else {
        0
    };
    let mut word = [fill; 4];
    word[..bytes.len()].copy_from_slice(bytes);
    u32::from_le_bytes(word)
}

impl fmt::Display for Access {
    fn fmt(&self, out: &mut fmt::Formatter<'_>) -> fmt::Result {
        let Access {
            layout,
            instruction,
            address,
        } = self;
        write!(out, "{instruction:?} at {address:#x} in {layout:?}")
    }
}

/// How often accesses of so many bytes ended so.
#[derive(Default)]
pub struct Accesses(BTreeMap<(u8, u32), u64>);

impl Accesses {
    fn count(&mut self, bytes: u8, ending: u32) {
        *self.0.entry((bytes, ending)).or_default() += 1;
    }

    fn of(&self, bytes: u8, ending: u32) -> u64 {
        self.0.get(&(bytes, ending)).copied().unwrap_or(0)
    }

    /// The kinds that never occurred.
    pub fn missing(&self) -> impl Iterator<Item = String> + '_ {
        let kinds = [1, 2, 4].into_iter();
        let kinds = kinds.flat_map(|bytes| ENDINGS.map(|(ending, name)| (bytes, ending, name)));
        let missing = kinds.filter(|&(bytes, ending, _)| self.of(bytes, ending) == 0);
        missing.map(|(bytes, _, name)| format!("an access {name}, bytes moved {bytes}"))
    }
}

const ENDINGS: [(u32, &str); 3] = [
    (OUT_OF_BUDGET, "done"),
    (TRAPPED, "trapped"),
    (VIOLATED, "violated"),
];

impl fmt::Display for Accesses {
    fn fmt(&self, out: &mut fmt::Formatter<'_>) -> fmt::Result {
        let all: u64 = self.0.values().sum();
        writeln!(
            out,
            "{all} single accesses beside the ends of region and guard zones, made by both as exact sums say:"
        )?;
        for bytes in [1, 2, 4] {
            let [done, trapped, violated] = ENDINGS.map(|(ending, _)| self.of(bytes, ending));
            writeln!(
                out,
                "  bytes moved {bytes}: {done:>5} done, {trapped:>5} trapped, {violated:>5} violated"
            )?;
        }
        Ok(())
    }
}
