//! The version of a member. It decides what stands in five places: in an area, in TableSettings, in
//! the outer region of Formats, before a cell's Value, and in a ValueMod that begins 31.

#[derive(Clone, Copy, Debug, PartialEq, Eq)]
pub enum Version {
    One,
    Three,
}

impl Version {
    /// The number in the Header.
    pub fn number(self) -> u32 {
        match self {
            Version::One => 1,
            Version::Three => 3,
        }
    }

    /// The version with this number.
    pub fn from_number(number: u32) -> Option<Version> {
        match number {
            1 => Some(Version::One),
            3 => Some(Version::Three),
            _ => None,
        }
    }

    /// The most zero bytes before the raw form of a cell's Value.
    pub fn cell_zeros(self) -> usize {
        match self {
            Version::One => 5,
            Version::Three => 4,
        }
    }
}
