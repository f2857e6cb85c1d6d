//! Areas that are lent to both readers: filled with a pattern first, compared in full after.

use std::fmt::Debug;

use crate::difference::Difference;

/// Elements after the lent ones, which nobody may change either.
const GUARD: usize = 8;

/// An area of which the first `length` elements are lent.
pub struct Area<T> {
    name: &'static str,
    pattern: fn(usize) -> T,
    elements: Vec<T>,
    length: usize,
}

impl Area<u32> {
    pub fn words(name: &'static str) -> Area<u32> {
        let pattern = |i| (i as u32).wrapping_mul(0x9e37_79b9) ^ 0xa5a5_a5a5;
        Area { name, pattern, elements: Vec::new(), length: 0 }
    }
}

impl Area<u8> {
    pub fn bytes(name: &'static str) -> Area<u8> {
        let pattern = |i| (i as u8).wrapping_mul(0x9d) ^ 0xa5;
        Area { name, pattern, elements: Vec::new(), length: 0 }
    }
}

impl<T: Copy + Debug + PartialEq> Area<T> {
    /// Lends `length` elements and fills them and the guard with the pattern.
    pub fn fill(&mut self, length: usize) {
        self.length = length;
        self.elements.clear();
        self.elements.extend((0..length + GUARD).map(self.pattern));
    }

    pub fn lent(&mut self) -> &mut [T] {
        &mut self.elements[..self.length]
    }

    /// Whether both areas hold the same, the guard included.
    pub fn compare(&self, expected: &Area<T>) -> Result<(), Difference> {
        if self.elements == expected.elements {
            return Ok(());
        }
        let both = self.elements.iter().zip(&expected.elements);
        let at = both.take_while(|(found, expected)| found == expected).count();
        let what = format!("{} at {at} of {}", self.name, self.length);
        Difference::compare(what, &expected.elements[at], &self.elements[at])
    }
}

#[cfg(test)]
mod tests {
    use super::*;

    fn filled() -> Area<u32> {
        let mut area = Area::words("area");
        area.fill(3);
        area
    }

    #[test]
    fn areas_with_the_same_elements_are_equal() {
        assert!(filled().compare(&filled()).is_ok());
    }

    #[test]
    fn each_element_and_each_of_the_guard_is_compared() {
        for at in 0..3 + GUARD {
            let mut changed = filled();
            changed.elements[at] += 1;
            let difference = changed.compare(&filled()).unwrap_err().to_string();
            assert!(difference.starts_with(&format!("area at {at} of 3: expected ")));
        }
    }
}
