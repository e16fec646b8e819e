//! Modules whose claims are to be worked out: loops in which claims grow, around the eighth and ninth time, accesses
//! that are allowed only if they do not become anything, and targets that no edge reaches. The claims that they have
//! are garbled.

use super::access::{any_bytes, load_or_store};
use super::shape;
use crate::assembler::*;
use crate::encode::{test, Instruction, Layout, Module, Range, ANYTHING};
use crate::random::Random;
use crate::samples::ring;

pub fn module(random: &mut Random) -> Module {
    let layout = shape::layout(random);
    let mut module = match random.below(20) {
        0 => ring(layout, 2 + random.below(5), 1 + random.below(3)),
        1..=7 => tangle(random, layout),
        _ => loops(random, layout),
    };
    for target in &mut module.targets {
        if !target.is_indirect() {
            target.claim = garbled_claim(random);
        }
    }
    module
}

/// Ranges of any kind, also ones whose lowest exceeds their highest, which rule 7 refuses elsewhere.
pub fn garbled_claim(random: &mut Random) -> [Range; 8] {
    let kind = random.below(4);
    [(); 8].map(|()| match kind {
        0 => (u32::MAX, 0),
        1 => ANYTHING,
        2 => (random.word(), random.word()),
        _ => {
            let word = random.word();
            (word, word)
        }
    })
}

/// Code under construction. Its targets are named by numbers.
struct Sketch {
    layout: Layout,
    code: Assembler<usize>,
    names: usize,
    /// The index of the last target.
    last: u16,
}

impl Sketch {
    fn new(layout: Layout) -> Sketch {
        let mut code = Assembler::new(layout);
        code.indirect(0);
        Sketch {
            layout,
            code,
            names: 1,
            last: 0,
        }
    }

    /// A name for a target that is still to stand.
    fn name(&mut self) -> usize {
        self.names += 1;
        self.names - 1
    }

    /// A target here, mostly a direct one. Where one stands already, some code comes between.
    fn stand(&mut self, random: &mut Random, name: usize) {
        if self.code.here() == self.last {
            self.code.put(&[small(random)]);
        }
        self.last = self.code.here();
        if random.chance(95) {
            self.code.direct(name, [ANYTHING; 8]);
        } else {
            self.code.indirect(name);
        }
    }

    /// An access through the sum of the base and a register: wild if that may be anything.
    fn access(&mut self, random: &mut Random, index: u8) {
        let pointer = other_than(random, index);
        let (value, bytes) = (random.register(), any_bytes(random));
        let made = load_or_store(random, value, pointer, bytes, 0);
        let base = self.layout.base;
        self.code
            .put(&[set(pointer, base), add(pointer, index), made]);
    }
}

fn other_than(random: &mut Random, register: u8) -> u8 {
    (register + 1 + random.below(7) as u8) % 8
}

/// Arithmetic on small numbers.
fn small(random: &mut Random) -> Instruction {
    let (a, b) = (random.register(), random.register());
    match random.below(8) {
        0 => set(a, random.below(20) as u32),
        1 => copy(a, b),
        2 => add(a, b),
        3 => sub(a, b),
        4 => andi(a, random.pick(&[1, 7, 0xff])),
        5 => shr(a, random.below(32) as u8),
        6 => guard(a),
        _ => addi(a, random.within(-4..=4) as i32),
    }
}

/// Loops one after another and in each other; then targets that no edge need reach.
fn loops(random: &mut Random, layout: Layout) -> Module {
    let mut sketch = Sketch::new(layout);
    for register in 0..8 {
        if random.chance(60) {
            sketch.code.put(&[set(register, random.below(4) as u32)]);
        }
    }
    for _ in 0..1 + random.below(3) {
        piece(random, &mut sketch, 2);
    }
    sketch.code.put(&[halt()]);
    if random.chance(40) {
        unreached(random, &mut sketch);
    }
    sketch.code.finish()
}

fn piece(random: &mut Random, sketch: &mut Sketch, depth: usize) {
    match random.below(10) {
        0 | 1 if depth > 0 => test_first(random, sketch, depth - 1),
        2 | 3 if depth > 0 => test_last(random, sketch, depth - 1),
        4 | 5 if depth > 0 => test_behind(random, sketch, depth - 1),
        6 => one_way_or_the_other(random, sketch),
        7 if random.chance(30) => sketch.access(random, 0),
        8 if random.chance(5) => aside(random, sketch),
        _ => sketch.code.put(&[small(random)]),
    }
}

/// A register that counts, and how. The limit is in another register; mostly it is passed after six to ten steps.
struct Count {
    register: u8,
    limit: u8,
    test: u8,
    step: i32,
}

impl Count {
    fn begin(random: &mut Random, sketch: &mut Sketch) -> Count {
        let register = random.register();
        let limit = other_than(random, register);
        let step = random.pick(&[1, 1, 1, 2, 4]);
        let from = random.pick(&[0, 0, 1, 30]);
        let steps = if random.chance(90) {
            6 + random.below(5)
        } else {
            random.below(40)
        };
        let to = from + step as u32 * steps as u32;
        sketch.code.put(&[set(register, from), set(limit, to)]);
        if random.chance(20) {
            // The first round begins with one of two numbers.
            sketch.code.put(&[copy(register, limit), andi(register, 1)]);
        }
        Count {
            register,
            limit,
            test: random.pick(&[test::BELOW, test::BELOW, test::BELOW, test::SIGNED_BELOW]),
            step,
        }
    }

    /// A target here, at which the loop is entered; sometimes by both edges of a branch, the first with fewer numbers,
    /// so that the second makes it grow at once.
    fn enter(&self, random: &mut Random, sketch: &mut Sketch, head: usize) {
        if random.chance(30) {
            let zero = other_than(random, self.register);
            let first = branch(self.register, zero, test::EQUAL, 0);
            sketch.code.put(&[set(zero, 0)]);
            sketch.code.put_to(first, head);
        }
        sketch.stand(random, head);
    }

    /// Goes to a target as long as the limit isn't reached.
    fn again(&self) -> Instruction {
        branch(self.register, self.limit, self.test, 0)
    }

    /// What is counted; also its limit is sometimes moved.
    fn step(&self, random: &mut Random) -> Instruction {
        if random.chance(95) {
            addi(self.register, self.step)
        } else {
            addi(self.limit, -self.step)
        }
    }
}

fn body(random: &mut Random, sketch: &mut Sketch, count: &Count, depth: usize) {
    if random.chance(40) {
        piece(random, sketch, depth);
    }
    if random.chance(20) {
        sketch.access(random, count.register);
    }
    let step = count.step(random);
    sketch.code.put(&[step]);
}

/// A loop that tests before each round.
fn test_first(random: &mut Random, sketch: &mut Sketch, depth: usize) {
    let count = Count::begin(random, sketch);
    let [head, round, after] = [(); 3].map(|()| sketch.name());
    count.enter(random, sketch, head);
    sketch.code.put_to(count.again(), round);
    sketch.code.put_to(jump(0), after);
    sketch.stand(random, round);
    body(random, sketch, &count, depth);
    sketch.code.put_to(jump(0), head);
    sketch.stand(random, after);
    if random.chance(50) {
        sketch.access(random, count.register);
    }
}

/// A loop that tests after each round. Behind it there may be a target, so that both edges of the branch end at one.
fn test_last(random: &mut Random, sketch: &mut Sketch, depth: usize) {
    let count = Count::begin(random, sketch);
    let head = sketch.name();
    count.enter(random, sketch, head);
    body(random, sketch, &count, depth);
    sketch.code.put_to(count.again(), head);
    if random.chance(50) {
        let after = sketch.name();
        sketch.stand(random, after);
    }
    if random.chance(50) {
        sketch.access(random, count.register);
    }
}

/// A loop whose test stands behind its round, so that a sweep that enters it grows by nothing but the entering.
fn test_behind(random: &mut Random, sketch: &mut Sketch, depth: usize) {
    let count = Count::begin(random, sketch);
    let [entry, round, head] = [(); 3].map(|()| sketch.name());
    sketch.code.put_to(jump(0), entry);
    sketch.stand(random, round);
    body(random, sketch, &count, depth);
    sketch.code.put_to(jump(0), head);
    sketch.stand(random, entry);
    count.enter(random, sketch, head);
    sketch.code.put_to(count.again(), round);
    if random.chance(50) {
        sketch.access(random, count.register);
    }
}

/// A branch over some code, or over none: then both its edges end at the same target.
fn one_way_or_the_other(random: &mut Random, sketch: &mut Sketch) {
    let after = sketch.name();
    let (a, b) = (random.register(), random.register());
    let made = branch(a, b, random.below(3) as u8, 0);
    sketch.code.put_to(made, after);
    for _ in 0..random.below(3) {
        sketch.code.put(&[small(random)]);
    }
    sketch.stand(random, after);
}

/// A branch to an index that need not be a target, or code with no way in.
fn aside(random: &mut Random, sketch: &mut Sketch) {
    let somewhere = u32::from(sketch.code.here()) + random.below(4) as u32;
    if random.chance(50) {
        let (a, b) = (random.register(), random.register());
        sketch.code.put(&[branch(a, b, test::BELOW, somewhere)]);
    } else {
        sketch.code.put_to(jump(0), 0);
        sketch.code.put(&[small(random)]);
    }
}

/// Targets that only each other's code reaches, if any; some go back to what stands before them.
fn unreached(random: &mut Random, sketch: &mut Sketch) {
    let before = sketch.names;
    let here = before..before + 1 + random.below(4);
    sketch.names = here.end;
    for name in here.clone() {
        sketch.stand(random, name);
        for _ in 0..random.below(3) {
            sketch.code.put(&[small(random)]);
        }
        let back = random.below(before);
        let among = here.start + random.below(here.len());
        match random.below(6) {
            0 => sketch.code.put_to(jump(0), back),
            1..=3 => sketch.code.put_to(jump(0), among),
            4 => sketch.code.put(&[check(0), jumpr(0)]),
            _ => sketch.code.put(&[halt()]),
        }
    }
    if random.chance(10) {
        sketch.code.put(&[small(random), halt()]);
    }
}

/// Targets that feed each other in any way.
fn tangle(random: &mut Random, layout: Layout) -> Module {
    let mut sketch = Sketch::new(layout);
    for register in 0..8 {
        sketch.code.put(&[set(register, random.below(12) as u32)]);
    }
    let targets = 2 + random.below(9);
    for name in 1..=targets {
        sketch.stand(random, name);
        for _ in 0..random.below(4) {
            sketch.code.put(&[small(random)]);
        }
        if random.chance(8) {
            let index = random.register();
            sketch.access(random, index);
        }
        for _ in 0..random.below(3) {
            let (a, b) = (random.register(), random.register());
            let made = branch(a, b, random.below(3) as u8, 0);
            sketch.code.put_to(made, 1 + random.below(targets));
        }
        match random.below(6) {
            0 => sketch.code.put(&[halt()]),
            1 => sketch.code.put(&[check(1), jumpr(1)]),
            2 | 3 => sketch.code.put_to(jump(0), 1 + random.below(targets)),
            // The last can't go on.
            _ if name == targets => sketch.code.put(&[halt()]),
            _ => {}
        }
    }
    sketch.code.finish()
}
