//! One list of runs on one machine and one memory: answers, machine and every byte of memory after each call.

use crate::difference::hexadecimal;
use crate::files::same;
use crate::limits::{not_over, LimitedCall};
use crate::plan::{self, Call};
use crate::signed::without_sign;
use crate::tally::Tally;
use modules::generate::{generate_from, Generated, Origin};
use modules::random::Random;
use sides::ending::{OUT_OF_BUDGET, VIOLATED};
use sides::{Limits, Machine, Ran, Side};
use std::ops::Range;

/// A run that ended within this many steps may be made again with a far larger budget.
const KNOWN_TO_END: u64 = 5000;

pub fn compare_list(seed: u64, case: u64, tally: &mut Tally) -> Result<(), String> {
    // Other numbers than those of the modules' cases.
    let mut random = Random::for_case(seed ^ 0x6c69_7374, case);
    let origin = match random.below(56) {
        0..=25 => Origin::Valid,
        26 | 27 => Origin::Plate,
        28..=40 => Origin::Near,
        41..=44 => Origin::Damaged,
        45 | 46 => Origin::Narrowed,
        47 => Origin::EmptyN,
        48 => Origin::EmptyB,
        49..=51 => Origin::Growing,
        52..=54 => Origin::Grouped,
        _ => Origin::Signed,
    };
    let mut generated = generate_from(origin, &mut random);
    if origin == Origin::Growing {
        // Mostly accepted then: what is promised of runs holds for these too.
        let _ = Side::Proved.work_out(Limits::BOX, &mut generated.file);
    }
    let mut list = List::new(&mut random, &generated);
    tally.count_list();
    for number in 0..1 + random.below(8) {
        let call = list.next_call(&mut random);
        list.make(call, &mut random, tally).map_err(|what| {
            let (origin, file) = (origin.name(), hexadecimal(&generated.file));
            format!("{what}\ncall {number}: {call:?}\norigin: {origin}\nfile: {file}")
        })?;
    }
    Ok(())
}

/// One side's machine and memory.
#[derive(Clone, PartialEq)]
struct State {
    machine: Machine,
    memory: Vec<u8>,
}

struct List<'a> {
    generated: &'a Generated,
    proved: State,
    handwritten: State,
    /// The region's size, if the file is readable.
    size: Option<usize>,
    /// The file with the loads of one width not carrying the sign up, and that width.
    without_sign: Vec<(u8, Vec<u8>)>,
    /// The module is accepted, and wherever the host sets the machine, it is to an indirect target.
    safe: bool,
}

impl List<'_> {
    fn new<'a>(random: &mut Random, generated: &'a Generated) -> List<'a> {
        let read = Side::Proved.read(&generated.file);
        let size = read.ok().map(|[_, size, ..]| size as usize);
        let without_sign = match read {
            Ok(_) => without_sign(&generated.file).collect(),
            Err(_) => Vec::new(),
        };
        let length = plan::memory_length(random, size.unwrap_or(4096));
        let mut memory = vec![0; length];
        memory.fill_with(|| random.byte());
        let at_indirect = random.chance(70);
        let machine = plan::machine(random, &generated.module, at_indirect);
        let accepted = Side::Proved.verify(Limits::BOX, &generated.file).is_ok();
        // A damaged file may be accepted with other tables than those known here.
        let safe = accepted && at_indirect && generated.origin != Origin::Damaged;
        let state = State { machine, memory };
        List {
            generated,
            proved: state.clone(),
            handwritten: state,
            size,
            without_sign,
            safe,
        }
    }

    /// The next call. The host writes its bytes before it, and sometimes sets the machine anew.
    fn next_call(&mut self, random: &mut Random) -> Call {
        let size = self.size.unwrap_or(4096);
        let mut call = plan::call(random, self.proved.memory.len(), size);
        if let Some(region) = self.region(call.offset) {
            plan::write_region(random, &mut self.proved.memory[region.clone()]);
            self.handwritten.memory[region.clone()].copy_from_slice(&self.proved.memory[region]);
        }
        if random.chance(if self.safe { 20 } else { 50 }) {
            self.set_machine(random);
        }
        if random.chance(20) && self.ends(call) {
            call.budget = plan::large_budget(random);
        }
        call.by_step &= call.budget == 1;
        call
    }

    /// Sets the machine anew, as if another list began on the same memory.
    fn set_machine(&mut self, random: &mut Random) {
        let at_indirect = self.safe || random.chance(50);
        let machine = plan::machine(random, &self.generated.module, at_indirect);
        self.proved.machine = machine;
        self.handwritten.machine = machine;
    }

    /// The region's bytes in memory, if there is room for it.
    fn region(&self, offset: usize) -> Option<Range<usize>> {
        let end = offset.checked_add(self.size?)?;
        (end <= self.proved.memory.len()).then_some(offset..end)
    }

    /// Whether a run ends by itself, tried on a copy.
    fn ends(&self, call: Call) -> bool {
        let file = &self.generated.file;
        let State {
            mut machine,
            mut memory,
        } = self.handwritten.clone();
        let Call { offset, .. } = call;
        let (machine, memory) = (&mut machine, &mut memory);
        let ran = Side::HandWritten.run(Limits::BOX, file, machine, memory, offset, KNOWN_TO_END);
        !matches!(ran, Ok((OUT_OF_BUDGET, _)))
    }

    fn make(&mut self, call: Call, random: &mut Random, tally: &mut Tally) -> Result<(), String> {
        let before = self.proved.clone();
        let file = &self.generated.file;
        let proved = make_on(Side::Proved, Limits::BOX, file, &mut self.proved, call);
        let handwritten = make_on(
            Side::HandWritten,
            Limits::BOX,
            file,
            &mut self.handwritten,
            call,
        );
        let ran = same("the answer", [proved, handwritten])?;
        not_over("the answer", ran)?;
        let machines = [self.proved.machine, self.handwritten.machine];
        same("the machine", machines)?;
        self.look_at_memory(&before.memory, call.offset)?;
        if ran.is_err() && before != self.proved {
            return Err(format!("refused {ran:?}, but machine or memory changed"));
        }
        self.look_at_steps(ran, call)?;
        let limited = self.make_by_limits(&before, ran, call, random)?;
        tally.count_call(call.budget, ran, self.safe && ran.is_ok());
        tally.count_limited_call(self.generated.origin, &limited);
        for (width, file) in &self.without_sign {
            if self.ends_otherwise(file, &before, ran, call) {
                tally.count_signed_run(*width);
            }
        }
        Ok(())
    }

    /// Makes a call by other limits, on copies of what was before. What is made leaves what the box's call left.
    fn make_by_limits(
        &self,
        before: &State,
        on_box: Ran,
        call: Call,
        random: &mut Random,
    ) -> Result<LimitedCall, String> {
        let Generated { file, .. } = self.generated;
        LimitedCall::of(
            self.generated,
            call.by_step,
            on_box,
            random,
            |limits, due| {
                let left = if due.is_ok() { &self.proved } else { before };
                for side in Side::BOTH {
                    let mut state = before.clone();
                    let ran = make_on(side, limits, file, &mut state, call);
                    if ran != due || state != *left {
                        let machine = state.machine;
                        let name = side.name();
                        return Err(format!("{name}: {ran:?}, {machine:?} and not {due:?}"));
                    }
                }
                Ok(())
            },
        )
    }

    /// Whether a call of another file has another outcome.
    fn ends_otherwise(&self, file: &[u8], before: &State, ran: Ran, mut call: Call) -> bool {
        let mut state = before.clone();
        // A run that ends by itself may not do so with another file.
        call.budget = call.budget.min(KNOWN_TO_END);
        let other = make_on(Side::HandWritten, Limits::BOX, file, &mut state, call);
        other != ran || state != self.handwritten
    }

    /// The same bytes on both sides, and no other than before outside the region.
    fn look_at_memory(&self, before: &[u8], offset: usize) -> Result<(), String> {
        let region = self.region(offset).unwrap_or(0..0);
        for (side, state) in Side::BOTH
            .into_iter()
            .zip([&self.proved, &self.handwritten])
        {
            let kept = state.memory[..region.start] == before[..region.start]
                && state.memory[region.end..] == before[region.end..];
            if !kept {
                let name = side.name();
                return Err(format!("{name}: memory outside the region changed"));
            }
        }
        let mut bytes = self.proved.memory.iter().zip(&self.handwritten.memory);
        match bytes.position(|(one, other)| one != other) {
            Some(at) => Err(format!("memory differs first at {at}, region {region:?}")),
            None => Ok(()),
        }
    }

    fn look_at_steps(&self, ran: Ran, call: Call) -> Result<(), String> {
        let Ok((ending, steps)) = ran else {
            return Ok(());
        };
        if steps > call.budget || (ending == OUT_OF_BUDGET && steps != call.budget) {
            return Err(format!("ending {ending} after {steps} steps"));
        }
        if self.safe && ending == VIOLATED {
            return Err("an accepted module begun at an indirect target is violated".into());
        }
        Ok(())
    }
}

fn make_on(side: Side, limits: Limits, file: &[u8], state: &mut State, call: Call) -> Ran {
    let State { machine, memory } = state;
    if call.by_step {
        side.step(limits, file, machine, memory, call.offset)
    } else {
        side.run(limits, file, machine, memory, call.offset, call.budget)
    }
}
