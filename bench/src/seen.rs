//! Which of the numbers of a list were seen before.

use std::collections::HashSet;
use std::hash::{BuildHasherDefault, Hasher};
use std::mem;

/// Marks are used where there are at most so many of them to a number.
const PLACES_A_NUMBER: u64 = 16;

/// The numbers seen so far: marks where the numbers are small, and else a set.
pub enum Seen {
    Marks(Vec<bool>),
    Set(HashSet<u64, BuildHasherDefault<NumberHasher>>),
}

impl Seen {
    /// None of up to `count` numbers, all below `bound`.
    pub fn none(count: u32, bound: u64) -> Seen {
        if bound <= PLACES_A_NUMBER * u64::from(count) {
            Seen::Marks(vec![false; bound as usize])
        } else {
            Seen::Set(HashSet::with_capacity_and_hasher(count as usize, Default::default()))
        }
    }

    /// Adds a number that is below the bound; false if it was seen before.
    pub fn insert(&mut self, number: u64) -> bool {
        match self {
            Seen::Marks(marks) => !mem::replace(&mut marks[number as usize], true),
            Seen::Set(set) => set.insert(number),
        }
    }
}

/// One multiplication for a number. From 512 numbers on a set with it was faster than one with the
/// standard hasher, and than a sort.
#[derive(Default)]
pub struct NumberHasher(u64);

impl Hasher for NumberHasher {
    fn finish(&self) -> u64 {
        self.0
    }

    fn write(&mut self, _: &[u8]) {
        unreachable!("only numbers of 64 bits are hashed");
    }

    fn write_u64(&mut self, number: u64) {
        self.0 = number.wrapping_mul(0x9e37_79b9_7f4a_7c15).rotate_left(26);
    }
}

#[cfg(test)]
mod tests {
    use super::*;

    #[test]
    fn a_number_is_new_once() {
        for bound in [10, 1 << 32] {
            let mut seen = Seen::none(4, bound);
            assert!([3, 9, 0, 7].into_iter().all(|number| seen.insert(number)));
            assert!([3, 9, 0, 7].into_iter().all(|number| !seen.insert(number)));
            assert!(seen.insert(8));
        }
    }
}
