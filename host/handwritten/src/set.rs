//! Sets of small numbers.

/// One bit for each number, in groups of 64.
pub(crate) struct Set<const GROUPS: usize>(pub [u64; GROUPS]);

impl<const GROUPS: usize> Set<GROUPS> {
    pub const EMPTY: Self = Set([0; GROUPS]);

    pub fn has(&self, number: usize) -> bool {
        self.0[number / 64] >> (number % 64) & 1 != 0
    }

    pub fn insert(&mut self, number: usize) {
        self.0[number / 64] |= 1 << (number % 64);
    }

    pub fn remove(&mut self, number: usize) {
        self.0[number / 64] &= !(1 << (number % 64));
    }

    /// The lowest that is not below `from`.
    pub fn next(&self, from: usize) -> Option<usize> {
        self.next_in(GROUPS, from)
    }

    /// The same of the first groups alone.
    pub fn next_in(&self, groups: usize, from: usize) -> Option<usize> {
        let groups = self.0.get(..groups)?;
        let mut group = from / 64;
        let mut bits = groups.get(group)? & (!0 << (from % 64));
        while bits == 0 {
            group += 1;
            bits = *groups.get(group)?;
        }
        Some(group * 64 + bits.trailing_zeros() as usize)
    }
}
