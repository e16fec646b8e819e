//! A small generator of pseudo-random numbers: splitmix64.

use std::ops::RangeInclusive;

pub struct Random {
    state: u64,
}

impl Random {
    /// The numbers of one case of a seed. Cases are independent, so that one can be repeated alone.
    pub fn for_case(seed: u64, case: u64) -> Random {
        let mut random = Random { state: seed };
        random.state = random.number() ^ case;
        random
    }

    pub fn number(&mut self) -> u64 {
        self.state = self.state.wrapping_add(0x9e37_79b9_7f4a_7c15);
        let mut z = self.state;
        z = (z ^ (z >> 30)).wrapping_mul(0xbf58_476d_1ce4_e5b9);
        z = (z ^ (z >> 27)).wrapping_mul(0x94d0_49bb_1331_11eb);
        z ^ (z >> 31)
    }

    pub fn byte(&mut self) -> u8 {
        self.number() as u8
    }

    /// A number below `end`, which is not 0.
    pub fn below(&mut self, end: usize) -> usize {
        (self.number() % end as u64) as usize
    }

    pub fn within(&mut self, range: RangeInclusive<i64>) -> i64 {
        let (first, last) = range.into_inner();
        let count = (last - first) as u64 + 1;
        first + (self.number() % count) as i64
    }

    pub fn chance(&mut self, percent: usize) -> bool {
        self.below(100) < percent
    }

    pub fn pick<T: Copy>(&mut self, items: &[T]) -> T {
        items[self.below(items.len())]
    }

    /// A register's number.
    pub fn register(&mut self) -> u8 {
        self.below(8) as u8
    }

    /// A 32-bit word, often one near an end of the signed or unsigned numbers, or a small one.
    pub fn word(&mut self) -> u32 {
        const ENDS: [u32; 3] = [0, 1 << 31, u32::MAX];
        match self.below(4) {
            0 => self
                .pick(&ENDS)
                .wrapping_add(self.below(7) as u32)
                .wrapping_sub(3),
            1 => self.below(300) as u32,
            2 => (self.number() as u32) >> self.below(32),
            _ => self.number() as u32,
        }
    }
}
