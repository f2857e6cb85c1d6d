//! Random Values.

use super::field::*;
use crate::encode;
use crate::limits::VALUE_DEPTH;
use crate::random::Random;
use crate::version::Version;

/// A Value that is not part of another Value.
pub fn value(random: &mut Random, version: Version) -> Vec<u8> {
    let levels = levels(random);
    value_with_levels(random, version, levels)
}

/// A cell's own Value.
pub fn cell_value(random: &mut Random, version: Version) -> Vec<u8> {
    let zeros = zeros(random, version.cell_zeros());
    let levels = levels(random);
    [zeros, raw_value(random, version, levels)].concat()
}

/// A Value of any form, of every depth more often than in a member.
pub fn any_value(random: &mut Random, version: Version) -> Vec<u8> {
    let zeros = zeros(random, version.cell_zeros());
    let levels = if random.once_in(3) { 2 + random.size(VALUE_DEPTH as usize - 2) } else { 1 };
    [zeros, raw_value(random, version, levels)].concat()
}

/// A cell's own Value that is a number with these bits, with labels or without.
pub fn cell_number(random: &mut Random, version: Version, bits: u64) -> Vec<u8> {
    let zeros = zeros(random, version.cell_zeros());
    let number = [value_mod(random, version), int32(random), encode::int64(bits)].concat();
    if random.once_in(2) {
        return [zeros, vec![0x01], number].concat();
    }
    let label = strings(random, 2);
    [zeros, vec![0x02], number, label, vec![random.byte()]].concat()
}

/// A cell's own Value that is no number; many have numbers inside.
pub fn cell_text(random: &mut Random, version: Version) -> Vec<u8> {
    loop {
        let value = any_value(random, version);
        if !matches!(value.iter().find(|&&byte| byte != 0), Some(0x01 | 0x02)) {
            return value;
        }
    }
}

/// An argument of such a Value.
pub fn argument_of_value(random: &mut Random, version: Version) -> Vec<u8> {
    let levels = 2 + random.size(VALUE_DEPTH as usize - 2);
    argument(random, version, levels)
}

fn levels(random: &mut Random) -> usize {
    if random.once_in(24) {
        1 + random.size(VALUE_DEPTH as usize - 1)
    } else {
        1
    }
}

/// Up to `most` zero bytes.
fn zeros(random: &mut Random, most: usize) -> Vec<u8> {
    vec![0; if random.once_in(2) { 0 } else { random.size(most) }]
}

/// A Value with exactly this many levels of nesting.
fn value_with_levels(random: &mut Random, version: Version, levels: usize) -> Vec<u8> {
    [zeros(random, 4), raw_value(random, version, levels)].concat()
}

fn raw_value(random: &mut Random, version: Version, levels: usize) -> Vec<u8> {
    let value_mod = |random: &mut Random| value_mod(random, version);
    if levels > 1 {
        let start = [value_mod(random), string(random)].concat();
        return [start, arguments(random, version, levels)].concat();
    }
    match random.below(7) {
        0 => [vec![0x01], formatted_number(random, version)].concat(),
        1 => {
            let label = strings(random, 2);
            [vec![0x02], formatted_number(random, version), label, vec![random.byte()]].concat()
        }
        2 => [vec![0x03], text(random, version), vec![random.bool()]].concat(),
        3 => labelled_string(random, version),
        4 => [vec![0x05], value_mod(random), strings(random, 2), vec![random.byte()]].concat(),
        5 => [vec![0x06], text(random, version)].concat(),
        _ => [value_mod(random), string(random), encode::list(&[])].concat(),
    }
}

fn formatted_number(random: &mut Random, version: Version) -> Vec<u8> {
    [value_mod(random, version), int32(random), random.bytes(8)].concat()
}

fn text(random: &mut Random, version: Version) -> Vec<u8> {
    [string(random), value_mod(random, version), strings(random, 2)].concat()
}

fn labelled_string(random: &mut Random, version: Version) -> Vec<u8> {
    let format = [value_mod(random, version), int32(random)].concat();
    let start = [vec![0x04], format, strings(random, 2)].concat();
    [start, vec![random.byte()], string(random)].concat()
}

/// The arguments of a Value with this many levels, at least 2.
fn arguments(random: &mut Random, version: Version, levels: usize) -> Vec<u8> {
    let mut arguments = vec![argument(random, version, levels)];
    for _ in 0..random.size(2) {
        arguments.push(argument(random, version, 2));
    }
    random.shuffle(&mut arguments);
    encode::list(&arguments)
}

/// An argument of a Value; one of the argument's values has one level less.
fn argument(random: &mut Random, version: Version, levels: usize) -> Vec<u8> {
    let mut values = vec![value_with_levels(random, version, levels - 1)];
    if random.once_in(2) {
        return [encode::int32(0), values.concat()].concat();
    }
    for _ in 0..random.size(2) {
        values.push(value_with_levels(random, version, 1));
    }
    random.shuffle(&mut values);
    [encode::int32s(&[values.len() as u32, 0]), values.concat()].concat()
}

/// A ValueMod; the long form only in version 3.
fn value_mod(random: &mut Random, version: Version) -> Vec<u8> {
    if version == Version::One || !random.once_in(3) {
        return vec![0x58];
    }
    let references = list(random, 3, |random| random.bytes(2));
    let subscripts = list(random, 2, string);
    let region = [template_string(random), style_pair(random)].concat();
    [vec![0x31], references, subscripts, encode::count(&region)].concat()
}

fn template_string(random: &mut Random) -> Vec<u8> {
    if random.once_in(3) {
        return encode::count(&[]);
    }
    let prefix = match random.below(3) {
        0 => vec![],
        1 => vec![0, 0, 0, 0, 0x58],
        _ => vec![0, 0, 0, 0, 0x31, 0x55],
    };
    encode::count(&[encode::count(&prefix), optional(random, string)].concat())
}

pub fn style_pair(random: &mut Random) -> Vec<u8> {
    [optional(random, font_style), optional(random, cell_style)].concat()
}

fn font_style(random: &mut Random) -> Vec<u8> {
    [bools(random, 4), strings(random, 3), vec![random.byte()]].concat()
}

fn cell_style(random: &mut Random) -> Vec<u8> {
    [int32s(random, 2), random.bytes(8), random.bytes(8)].concat()
}
