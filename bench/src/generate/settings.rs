//! Random Areas, Borders, PrintSettings, TableSettings and Formats.

use super::field::*;
use super::value::style_pair;
use crate::encode;
use crate::random::Random;
use crate::version::Version;

pub fn areas(random: &mut Random, version: Version) -> Vec<u8> {
    let mut bytes = optional_byte(random, 0x00);
    for index in 1..=8 {
        bytes.extend(area(random, version, index));
    }
    bytes
}

fn area(random: &mut Random, version: Version, index: u8) -> Vec<u8> {
    let mut bytes = vec![index, 0x31];
    bytes.extend(string(random));
    bytes.extend(random.bytes(4));
    bytes.extend(int32(random));
    bytes.extend(bools(random, 1));
    bytes.extend(int32s(random, 2));
    bytes.extend(strings(random, 2));
    bytes.extend(bools(random, 1));
    bytes.extend(strings(random, 2));
    if version == Version::Three {
        bytes.extend(int32s(random, 4));
    }
    bytes
}

pub fn borders(random: &mut Random) -> Vec<u8> {
    let entries = entries(random, 4, |random| int32s(random, 3));
    let show_grid_lines = bools(random, 1);
    let content = [encode::be32(1), encode::be_list(&entries), show_grid_lines, vec![0; 3]];
    encode::count(&content.concat())
}

pub fn print_settings(random: &mut Random) -> Vec<u8> {
    let bools = bools(random, 6);
    let content = [encode::be32(1), bools, int32(random), bestring(random)];
    encode::count(&content.concat())
}

pub fn table_settings(random: &mut Random, version: Version) -> Vec<u8> {
    let content = match version {
        Version::One => free_table_settings(random),
        Version::Three => table_settings_content(random),
    };
    encode::count(&content)
}

/// Any bytes, often none or the content of version 3.
fn free_table_settings(random: &mut Random) -> Vec<u8> {
    match random.below(4) {
        0 => Vec::new(),
        1 => table_settings_content(random),
        2 => {
            let length = random.size(200);
            random.bytes(length)
        }
        _ => free_content(random),
    }
}

fn table_settings_content(random: &mut Random) -> Vec<u8> {
    let mut content = encode::be32(1);
    content.extend(int32s(random, 2));
    content.extend(bools(random, 4));
    content.push(random.byte());
    content.extend(breaks_and_keeps(random));
    content.extend(bestring(random));
    content.extend(bestring(random));
    content.extend(free_content(random));
    content
}

fn breaks_and_keeps(random: &mut Random) -> Vec<u8> {
    let mut content = Vec::new();
    for numbers_per_entry in [1, 1, 2, 2, 3, 3] {
        let entries = entries(random, 2, |random| int32s(random, numbers_per_entry));
        content.extend(encode::be_list(&entries));
    }
    encode::becount(&content)
}

fn free_content(random: &mut Random) -> Vec<u8> {
    let length = random.size(12);
    random.bytes(length)
}

pub fn formats(random: &mut Random, version: Version) -> Vec<u8> {
    let mut bytes = list(random, 3, int32);
    bytes.extend(string(random));
    bytes.extend(int32(random));
    bytes.extend(bools(random, 3));
    bytes.extend(y0(random));
    bytes.extend(custom_currency(random));
    let region = match version {
        Version::One => optional_x0(random),
        Version::Three => x1_to_x3(random),
    };
    bytes.extend(encode::count(&region));
    bytes
}

fn y0(random: &mut Random) -> Vec<u8> {
    [int32(random), random.bytes(2)].concat()
}

fn custom_currency(random: &mut Random) -> Vec<u8> {
    list(random, 5, string)
}

fn optional_x0(random: &mut Random) -> Vec<u8> {
    if random.once_in(3) {
        return Vec::new();
    }
    [random.bytes(14), y1(random), y2(random)].concat()
}

fn y1(random: &mut Random) -> Vec<u8> {
    [strings(random, 5), bools(random, 4), y0(random)].concat()
}

fn y2(random: &mut Random) -> Vec<u8> {
    [custom_currency(random), vec![random.byte()], bools(random, 1)].concat()
}

fn x1_to_x3(random: &mut Random) -> Vec<u8> {
    let x1_and_x2 = [x1(random), encode::count(&x2(random))].concat();
    let x3 = free_content(random);
    [encode::count(&x1_and_x2), encode::count(&x3)].concat()
}

fn x1(random: &mut Random) -> Vec<u8> {
    let mut bytes = vec![random.bool(), random.byte(), random.bool()];
    bytes.extend(random.bytes(3));
    bytes.extend(int32s(random, 2));
    bytes.extend([0; 17]);
    bytes.extend(bools(random, 2));
    bytes
}

fn x2(random: &mut Random) -> Vec<u8> {
    let row_heights = list(random, 2, int32);
    let style_map = list(random, 2, |random| random.bytes(8 + 2));
    let styles = list(random, 2, style_pair);
    let ending = vec![0; random.pick(&[0, 8])];
    [row_heights, style_map, styles, encode::count(&ending)].concat()
}
