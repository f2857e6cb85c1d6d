//! Random fields.

use crate::encode;
use crate::random::Random;

/// A number; small and extreme ones are frequent.
pub fn number(random: &mut Random) -> u32 {
    match random.below(4) {
        0 => random.next_number() as u32,
        1 => u32::MAX - random.below(3) as u32,
        _ => random.below(4) as u32,
    }
}

pub fn int32(random: &mut Random) -> Vec<u8> {
    encode::int32(number(random))
}

pub fn int32s(random: &mut Random, times: usize) -> Vec<u8> {
    (0..times).flat_map(|_| int32(random)).collect()
}

pub fn bools(random: &mut Random, times: usize) -> Vec<u8> {
    (0..times).map(|_| random.bool()).collect()
}

/// A member's text: no byte of it is zero.
fn text(random: &mut Random) -> Vec<u8> {
    let length = if random.once_in(16) { random.size(60) } else { random.size(4) };
    random.bytes(length).into_iter().map(|byte| byte.max(1)).collect()
}

pub fn string(random: &mut Random) -> Vec<u8> {
    encode::string(&text(random))
}

pub fn strings(random: &mut Random, times: usize) -> Vec<u8> {
    (0..times).flat_map(|_| string(random)).collect()
}

pub fn bestring(random: &mut Random) -> Vec<u8> {
    encode::bestring(&text(random))
}

/// Up to `most` entries.
pub fn entries(
    random: &mut Random,
    most: usize,
    entry: impl Fn(&mut Random) -> Vec<u8>,
) -> Vec<Vec<u8>> {
    (0..random.size(most)).map(|_| entry(random)).collect()
}

/// A little-endian number of entries and up to `most` entries.
pub fn list(random: &mut Random, most: usize, entry: impl Fn(&mut Random) -> Vec<u8>) -> Vec<u8> {
    encode::list(&entries(random, most, entry))
}

/// 58, or 31 and a part.
pub fn optional(random: &mut Random, part: impl Fn(&mut Random) -> Vec<u8>) -> Vec<u8> {
    if random.once_in(2) {
        return vec![0x58];
    }
    [vec![0x31], part(random)].concat()
}

/// The byte or nothing.
pub fn optional_byte(random: &mut Random, byte: u8) -> Vec<u8> {
    vec![byte; random.size(1)]
}
