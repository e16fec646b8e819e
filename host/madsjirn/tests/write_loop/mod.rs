use madsjirn::assembly::*;
use madsjirn::{write, Layout, Refusal, Target};

/// Document 01's loop: its file at the beginning of the buffer. Gives the file's length.
pub fn write_loop(buffer: &mut [u8]) -> Result<usize, Refusal> {
    let layout = Layout { base: 0x2000_0000, size: 4096, guard: 256 };
    let instructions = [
        guard(R1),                    // 0
        load(R0, R1, Width::Word, 0), // 1
        addi(R1, 4),                  // 2
        jump(1),                      // 3
    ];
    let again = Target::direct(1).claim(R1, 0x2000_0000..=0x2000_1003);
    write(layout, &instructions, &[Target::indirect(0), again], buffer)
}
