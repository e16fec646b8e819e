//! Writes, verifies and runs document 01's loop. It reads its region word by word, has no test for the end, and is
//! safe: the guard zone stops it.

use madsjirn::assembly::*;
use madsjirn::{
    read, verify, write, Layout, Limits, Machine, Refusal, Target, Verified, LONGEST_FILE,
};

fn main() -> Result<(), Refusal> {
    let file = loop_file(256)?;
    println!("written: {} bytes", file.len());
    let Layout { base, size, guard } = read(&file)?.layout;
    println!("base {base:#x}, size {size}, guard {guard}");
    let verified = verify(Limits::BOX, &file)?;
    println!(
        "accepted {} {}",
        verified.instructions(),
        verified.targets()
    );
    run_to_its_end(verified, size as usize)?;
    match verify(Limits::BOX, &loop_file(6)?) {
        Ok(_) => println!("a guard of 6 bytes: accepted"),
        Err(refusal) => println!("a guard of 6 bytes: {refusal}"),
    }
    Ok(())
}

/// One step and then the rest, with the host's bytes in the region between them.
fn run_to_its_end(module: Verified<'_>, size: usize) -> Result<(), Refusal> {
    // Index 0 is an indirect target, so the promise holds from here on.
    let mut machine = Machine::default();
    let mut memory = vec![0; size];
    let first = module.step(&mut machine, &mut memory, 0)?;
    println!("step: {}, steps made: {}", first.ending, first.steps);
    memory.fill(0xa5);
    let rest = module.run(&mut machine, &mut memory, 0, 1_000_000)?;
    println!("run: {}, steps made: {}", rest.ending, rest.steps);
    let [r0, r1, ..] = machine.registers;
    println!("pc {}, r0 {r0:#x}, r1 {r1:#x}", machine.pc);
    Ok(())
}

/// The loop as a module file, with guard zones of that many bytes.
fn loop_file(guard_bytes: u32) -> Result<Vec<u8>, Refusal> {
    let layout = Layout {
        base: 0x2000_0000,
        size: 4096,
        guard: guard_bytes,
    };
    let instructions = [
        guard(R1),
        load(R0, R1, Width::Word, 0),
        addi(R1, 4),
        jump(1),
    ];
    let targets = [
        Target::indirect(0),
        Target::direct(1).claim(R1, 0x2000_0000..=0x2000_1003),
    ];
    let mut file = vec![0; LONGEST_FILE];
    let length = write(layout, &instructions, &targets, &mut file)?;
    file.truncate(length);
    Ok(file)
}
