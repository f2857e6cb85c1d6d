//! Random members whose cells are mostly counts.

use super::value::{cell_number, cell_text};
use crate::axes::table_places;
use crate::encode::{int64, list};
use crate::parts::{table, Section};
use crate::random::Random;
use crate::version::Version;

/// Doubles that are no count, next to ones that are where there is such a one.
const NO_COUNTS: [f64; 16] = [
    4_294_967_296.0,
    4_294_967_295.5,
    2_147_483_647.5,
    1.5,
    0.5,
    -0.5,
    -1.0,
    -4_294_967_295.0,
    f64::INFINITY,
    f64::NEG_INFINITY,
    f64::NAN,
    f64::MIN_POSITIVE,
    f64::MAX,
    f64::EPSILON,
    1e300,
    -1e300,
];

/// Bits of some more: subnormal ones, next to 1, next to the missing double, and NaNs.
const NO_COUNT_BITS: [u64; 10] = [
    1,
    1 | 1 << 63,
    0x000f_ffff_ffff_ffff,
    0x3fef_ffff_ffff_ffff,
    0x3ff0_0000_0000_0001,
    0xffef_ffff_ffff_fffe,
    0x7fef_ffff_ffff_fffe,
    0x7ff0_0000_0000_0001,
    0xfff8_0000_0000_0000,
    u64::MAX,
];

/// An accepted member of either version; in about half of them every number is a count.
pub fn member_with_counts(random: &mut Random) -> Vec<u8> {
    let version = random.pick(&[Version::One, Version::Three]);
    let (leaves, places) = leaves(random);
    let only_counts = random.once_in(2);
    let cells: Vec<Vec<u8>> = indexes(random, places)
        .into_iter()
        .map(|index| [int64(index), value(random, version, only_counts)].concat())
        .collect();
    let parts = table(&leaves, &[]);
    let parts = if version == Version::One { parts.in_version_1() } else { parts };
    parts.with(Section::Cells, list(&cells)).bytes()
}

/// The leaves of each dimension, and how many places the table has.
fn leaves(random: &mut Random) -> (Vec<u32>, u64) {
    loop {
        let dimensions = if random.once_in(12) { 16 } else { random.size(4) };
        let leaves: Vec<u32> = (0..dimensions).map(|_| number_of_leaves(random)).collect();
        if let Some(places) = table_places(&leaves) {
            return (leaves, places);
        }
    }
}

fn number_of_leaves(random: &mut Random) -> u32 {
    if random.once_in(30) {
        return 0;
    }
    let most = if random.once_in(8) { 20 } else { 4 };
    1 + random.below(most) as u32
}

/// Up to 24 indexes below the number of places, each once, in no order.
fn indexes(random: &mut Random, places: u64) -> Vec<u64> {
    let mut indexes: Vec<u64> = Vec::new();
    for _ in 0..random.size(24) {
        if places > 0 {
            let index = random.below(places);
            if !indexes.contains(&index) {
                indexes.push(index);
            }
        }
    }
    indexes
}

fn value(random: &mut Random, version: Version, only_counts: bool) -> Vec<u8> {
    if random.once_in(6) {
        return cell_text(random, version);
    }
    let bits = if !only_counts && random.once_in(5) { no_count(random) } else { count(random) };
    cell_number(random, version, bits)
}

/// The bits of a count, or of the missing double.
fn count(random: &mut Random) -> u64 {
    let any = random.next_number() as u32;
    let x = match random.below(8) {
        0 => f64::MIN,
        1 => random.pick(&[0.0, -0.0]),
        2 => f64::from(u32::MAX - random.below(2) as u32),
        3 => f64::from(1 << random.below(32)),
        4 => f64::from(any),
        _ => f64::from(any % 100),
    };
    x.to_bits()
}

/// The bits of another double.
fn no_count(random: &mut Random) -> u64 {
    match random.below(4) {
        0 => random.pick(&NO_COUNT_BITS),
        // A count and a half, or so.
        1 => f64::from(random.next_number() as u32).to_bits() | 1,
        2 => random.next_number() | 1,
        _ => random.pick(&NO_COUNTS).to_bits(),
    }
}
