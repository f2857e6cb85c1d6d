//! Inputs of the differential test: each as it is, damaged, and cut at every length.

use std::fmt::Display;

use digarumbi_bench::damage::damaged;
use digarumbi_bench::random::Random;

use crate::difference::Difference;
use crate::stored::Stored;

/// Every so many generated inputs are cut at every length.
const CUT_EVERY: u64 = 1_000;
/// Damaged copies of each generated input, and of each stored one.
const COPIES: u32 = 3;
const STORED_COPIES: u32 = 500;

/// A check of members or of looks.
pub trait Check {
    /// Compares what both readers give for an input that was made from `original`.
    fn check(&mut self, input: &[u8], original: &[u8]) -> Result<(), Difference>;

    /// Places of an accepted input; damage is done after one of them.
    fn damage_starts(&self, original: &[u8]) -> Vec<usize>;
}

/// Hands inputs to a check. The same seed gives the same inputs.
pub struct Inputs<C> {
    pub check: C,
    seed: u64,
    random: Random,
}

impl<C: Check> Inputs<C> {
    pub fn new(check: C, seed: u64) -> Inputs<C> {
        Inputs { check, seed, random: Random::new(seed) }
    }

    /// An input as it is.
    pub fn whole(&mut self, name: &str, bytes: &[u8]) -> Result<(), Difference> {
        self.made_from(bytes, name, bytes)
    }

    /// Stored inputs, with damaged copies.
    pub fn stored(&mut self, inputs: &[Stored]) -> Result<(), Difference> {
        inputs
            .iter()
            .try_for_each(|input| self.with_copies(&input.name, &input.bytes, STORED_COPIES))
    }

    /// Stored inputs, cut at every length.
    pub fn stored_cut(&mut self, inputs: &[Stored]) -> Result<(), Difference> {
        inputs.iter().try_for_each(|input| self.cut(&input.name, &input.bytes))
    }

    /// `count` generated inputs with damaged copies, some of them also cut at every length.
    pub fn generated(
        &mut self,
        count: u64,
        generate: impl Fn(&mut Random) -> Vec<u8>,
    ) -> Result<(), Difference> {
        for number in 0..count {
            let seed = self.seed.wrapping_mul(count).wrapping_add(number);
            let bytes = generate(&mut Random::new(seed));
            let name = format!("generated from seed {seed}");
            self.with_copies(&name, &bytes, COPIES)?;
            if number % CUT_EVERY == 0 {
                self.cut(&name, &bytes)?;
            }
        }
        Ok(())
    }

    fn with_copies(&mut self, name: &str, bytes: &[u8], copies: u32) -> Result<(), Difference> {
        self.whole(name, bytes)?;
        let starts = self.check.damage_starts(bytes);
        for _ in 0..copies {
            let start = self.random.pick(&starts);
            let copy = damaged_after(start, bytes, &mut self.random);
            self.made_from(bytes, format_args!("{name}, damaged"), &copy)?;
        }
        Ok(())
    }

    fn cut(&mut self, name: &str, bytes: &[u8]) -> Result<(), Difference> {
        (0..bytes.len()).try_for_each(|length| {
            self.made_from(bytes, format_args!("{name}, cut"), &bytes[..length])
        })
    }

    fn made_from(
        &mut self,
        original: &[u8],
        name: impl Display,
        input: &[u8],
    ) -> Result<(), Difference> {
        self.check
            .check(input, original)
            .map_err(|difference| difference.for_input(&name.to_string(), input))
    }
}

/// A copy that is damaged once or up to four times; bytes before `start` stay.
fn damaged_after(start: usize, bytes: &[u8], random: &mut Random) -> Vec<u8> {
    let (before, after) = bytes.split_at(start);
    let mut after = after.to_vec();
    for _ in 0..random.pick(&[1, 1, 1, 2, 3, 4]) {
        after = damaged(&after, random);
    }
    [before, &after].concat()
}
