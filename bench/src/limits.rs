//! The sizes that are accepted.

pub const MEMBER_BYTES: usize = 1_048_576;
pub const DIMENSIONS: usize = 16;
pub const FOOTNOTES: u32 = 256;
pub const NODES: usize = 4_096;
pub const CELLS: u32 = 4_096;
pub const VALUE_DEPTH: u32 = 8;
pub const CATEGORY_DEPTH: u32 = 8;
pub const TABLE_PLACES: u64 = 4_294_967_295;
/// Bytes of the longest look.
pub const LOOK_BYTES: usize = 3_160;

/// Largest input of the test program that prints one line.
pub const LINE_BYTES: usize = 65_536;
