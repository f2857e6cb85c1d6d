//! A refusal: its number and the place in the input that it is about.

use std::fmt;

pub const TOO_LONG: u32 = 1;
pub const DOES_NOT_FIT: u32 = 2;
pub const FIXED_DIFFERS: u32 = 3;
pub const VERSION: u32 = 4;
pub const NOT_BOOL: u32 = 5;
pub const REGION_NOT_FILLED: u32 = 6;
pub const LIMIT: u32 = 7;
pub const LEAF_INDEX: u32 = 8;
pub const AXES: u32 = 9;
pub const CELL_INDEX: u32 = 10;
pub const BYTES_LEFT: u32 = 11;
pub const NODE_AREA: u32 = 12;
pub const CELL_AREA: u32 = 13;
pub const COLOR: u32 = 14;
pub const OUTPUT_TOO_SHORT: u32 = 15;
pub const ZERO_BYTE: u32 = 18;
pub const NO_SUCH_LEAF: u32 = 19;
pub const NO_COUNT: u32 = 20;
pub const UNKNOWN_PAGE: u32 = 24;
pub const NO_CHARACTER: u32 = 25;
pub const MEMBER_LIST: u32 = 26;
pub const NO_MEANING: u32 = 29;

#[derive(Clone, Copy, Debug, PartialEq, Eq)]
pub struct Refusal {
    pub number: u32,
    pub place: usize,
}

impl Refusal {
    pub fn new(number: u32, place: usize) -> Refusal {
        Refusal { number, place }
    }
}

impl fmt::Display for Refusal {
    fn fmt(&self, f: &mut fmt::Formatter) -> fmt::Result {
        write!(f, "refused {} at {}", self.number, self.place)
    }
}

/// Refuses with `number` at `place` when `condition` holds.
pub fn refuse_if(condition: bool, number: u32, place: usize) -> Result<(), Refusal> {
    if condition {
        Err(Refusal::new(number, place))
    } else {
        Ok(())
    }
}
