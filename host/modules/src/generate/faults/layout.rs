//! Rule 5. The layouts were good: sizes are 256 at least, and bases multiples of them.

use super::{Break, Named};

pub const BREAKS: &[Named<Break>] = &[
    ("size no power of two", |random, tables| {
        let size = &mut tables.layout.size;
        *size = random.pick(&[0, *size - 1, *size + 1, *size | 1 << 20]);
        true
    }),
    ("size outside its limits", |random, tables| {
        tables.layout.size = random.pick(&[1, 128, 131_072, 1 << 31]);
        true
    }),
    ("guard too large", |random, tables| {
        tables.layout.guard = random.pick(&[4097, 8192, 1 << 31, u32::MAX]);
        true
    }),
    ("base no multiple", |random, tables| {
        tables.layout.base |= random.pick(&[1, 4, 128]);
        true
    }),
    ("base below guard", |random, tables| {
        tables.layout.base = 0;
        tables.layout.guard = random.pick(&[1, 4096]);
        true
    }),
    ("end above 2^32", |random, tables| {
        tables.layout.base = 0u32.wrapping_sub(tables.layout.size);
        tables.layout.guard = random.pick(&[1, 4096]);
        true
    }),
];
