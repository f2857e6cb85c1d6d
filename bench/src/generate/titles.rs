//! Random Header, Titles and Footnotes.

use super::field::*;
use super::value::value;
use crate::encode;
use crate::random::Random;
use crate::version::Version;

pub fn header(random: &mut Random, version: Version) -> Vec<u8> {
    let start = [vec![1, 0], encode::int32(version.number())].concat();
    [start, bools(random, 5), int32s(random, 5), random.bytes(8)].concat()
}

pub fn titles(random: &mut Random, version: Version) -> Vec<u8> {
    let value = |random: &mut Random| value(random, version);
    let mut bytes = value(random);
    bytes.extend(marked_subtype(random, version));
    bytes.extend(optional_byte(random, 0x01));
    bytes.push(0x31);
    bytes.extend(value(random));
    bytes.extend(optional_byte(random, 0x01));
    bytes.extend(optional(random, value));
    bytes.extend(optional(random, value));
    bytes
}

/// The optional mark after the title and the subtype.
/// A subtype that begins with 01 always has the mark before it.
fn marked_subtype(random: &mut Random, version: Version) -> Vec<u8> {
    let subtype = value(random, version);
    let mark = if subtype[0] == 0x01 { vec![0x01] } else { optional_byte(random, 0x01) };
    [mark, subtype].concat()
}

pub fn footnotes(random: &mut Random, version: Version) -> Vec<u8> {
    let value = |random: &mut Random| value(random, version);
    list(random, 3, |random| [value(random), optional(random, value), int32(random)].concat())
}
