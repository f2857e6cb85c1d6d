//! How many inputs were accepted, and how many refused with each number.

use std::fmt;

use crate::difference::Difference;

/// One more than the largest refusal number.
const NUMBERS: usize = 30;

#[derive(Default)]
pub struct Tally([u64; NUMBERS]);

impl Tally {
    /// Counts an answer with this refusal number.
    pub fn count(&mut self, refusal: u32) {
        self.0[refusal as usize] += 1;
    }

    pub fn total(&self) -> u64 {
        self.0.iter().sum()
    }

    /// Whether each of these numbers was seen.
    pub fn all_seen(&self, numbers: &[u32]) -> Result<(), Difference> {
        let seen = |number: &u32| self.0[*number as usize] > 0;
        let seen: Vec<u32> = numbers.iter().copied().filter(seen).collect();
        Difference::compare("refusal numbers seen", &numbers.to_vec(), &seen)
    }
}

/// The numbers that were seen, 0 for those accepted.
impl fmt::Display for Tally {
    fn fmt(&self, f: &mut fmt::Formatter) -> fmt::Result {
        write!(f, "{} accepted", self.0[0])?;
        let seen = self.0.iter().enumerate().skip(1).filter(|(_, &count)| count > 0);
        for (number, count) in seen {
            write!(f, ", {count} refused {number}")?;
        }
        Ok(())
    }
}
