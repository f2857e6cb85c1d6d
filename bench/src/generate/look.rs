//! Random looks: accepted files, and looks for the writer.

use super::field::*;
use crate::encode::{self, int16};
use crate::look::{
    AreaColor, AreaStyle, Continuation, Look, Name, Separator, V2Styles, LOOK_VERSION,
};
use crate::random::Random;

/// How those fields of a look are made for which the sections of a member can be refused.
#[derive(Clone, Copy)]
enum Styles {
    /// By any bytes.
    Any,
    /// With a meaning, but one field in so many.
    Meant { all_but_one_in: u64 },
}

impl Styles {
    fn fault(self, random: &mut Random) -> bool {
        matches!(self, Styles::Meant { all_but_one_in } if random.once_in(all_but_one_in))
    }
}

/// The bytes of an accepted look, about half of them of version 00.
pub fn look_bytes(random: &mut Random) -> Vec<u8> {
    file(random, Styles::Any)
}

/// The same, with fields from which the sections of a member can be made: all of them in about a third
/// of the looks, and all but few in the others.
pub fn styled_look_bytes(random: &mut Random) -> Vec<u8> {
    let all_but_one_in = random.pick(&[u64::MAX, 60, 15]);
    file(random, Styles::Meant { all_but_one_in })
}

fn file(random: &mut Random, styles: Styles) -> Vec<u8> {
    let version = random.pick(&[0, 2]);
    let mut bytes = section_name(b"PTTableLook");
    bytes.push(version);
    bytes.extend(random.bytes(2));
    bytes.extend([0, 0, random.bool(), 0, random.bool(), 0]);
    bytes.extend([54, 0, 0, 0, 18, 0, 0, 0]);
    bytes.extend(section_name(b"PVSeparatorStyle"));
    bytes.push(0);
    bytes.extend(separators(random, styles, 4));
    bytes.extend([0x03, 0x80, 0x00]);
    bytes.extend(separators(random, styles, 4));
    bytes.extend(section_name(b"PVCellStyle"));
    bytes.extend(area_color(random));
    bytes.extend(section_name(b"PVTextStyle"));
    bytes.push(0);
    bytes.extend(area_style(random, styles));
    for _ in 0..7 {
        bytes.extend([0x06, 0x80]);
        bytes.extend(area_color(random));
        bytes.extend([0x08, 0x80, 0x00]);
        bytes.extend(area_style(random, styles));
    }
    if version == 2 {
        bytes.extend(separators(random, styles, 11));
        bytes.extend(continuation(random));
        bytes.extend(int32s(random, 4));
    }
    bytes
}

/// The start of a section: its class name has its length before its letters.
fn section_name(letters: &[u8]) -> Vec<u8> {
    [&[0xff, 0xff, 0, 0][..], &int16(letters.len() as u16)[..], letters].concat()
}

fn separators(random: &mut Random, styles: Styles, number: usize) -> Vec<u8> {
    (0..number).flat_map(|_| separator(random, styles)).collect()
}

fn separator(random: &mut Random, styles: Styles) -> Vec<u8> {
    if random.once_in(2) {
        return vec![0, 0];
    }
    [vec![1, 0], color(random), style_and_width(random, styles)].concat()
}

fn style_and_width(random: &mut Random, styles: Styles) -> Vec<u8> {
    if let Styles::Any = styles {
        return random.bytes(4);
    }
    let any = random.next_number() as u16;
    let [style, width] = if styles.fault(random) {
        random.pick(&[[0, 4], [0, 256], [1, 2], [1, u16::MAX], [3, 0], [256, 0], [u16::MAX, any]])
    } else {
        random.pick(&[[0, 0], [0, 1], [0, 2], [0, 3], [1, 0], [1, 1], [2, 0], [2, any]])
    };
    [int16(style), int16(width)].concat()
}

fn color(random: &mut Random) -> Vec<u8> {
    [random.bytes(3), vec![0]].concat()
}

fn area_color(random: &mut Random) -> Vec<u8> {
    let colors = [color(random), color(random)].concat();
    [vec![0, 1, 0], colors, vec![random.size(10) as u8, 0]].concat()
}

fn area_style(random: &mut Random, styles: Styles) -> Vec<u8> {
    let mut bytes = alignment(random, styles, 3);
    bytes.extend(alignment(random, styles, 5));
    bytes.extend(random.bytes(10));
    bytes.extend([0, 0, 1, 0]);
    bytes.extend(font_size(random, styles));
    bytes.extend(random.bytes(2));
    bytes.extend([0; 2]);
    bytes.extend(random.bytes(4));
    bytes.extend([0; 4]);
    bytes.extend(weight(random, styles));
    bytes.extend([0; 2]);
    bytes.extend(bools(random, 3));
    bytes.extend(random.bytes(5));
    bytes.extend(font_name(random, styles));
    bytes.extend(color(random));
    bytes.extend([0; 2]);
    bytes
}

/// An alignment of which the first so many numbers have a meaning.
fn alignment(random: &mut Random, styles: Styles, meanings: u16) -> Vec<u8> {
    match styles {
        Styles::Any => random.bytes(2),
        _ if styles.fault(random) => int16(random.pick(&[meanings, meanings + 1, 256, u16::MAX])),
        _ => int16(random.below(meanings.into()) as u16),
    }
}

fn font_size(random: &mut Random, styles: Styles) -> Vec<u8> {
    if let Styles::Any = styles {
        return random.bytes(4);
    }
    let any = 1 + random.size(999_999) as i32;
    let size = if styles.fault(random) {
        random.pick(&[0, 1, 12, any, i32::MAX, i32::MIN, -1_000_001, -2_000_000])
    } else {
        random.pick(&[-1, -12, -16, -1_000_000, -any, -any / 1_000 - 1])
    };
    encode::int32(size as u32)
}

/// Any weight; those around 700 are frequent.
fn weight(random: &mut Random, styles: Styles) -> Vec<u8> {
    match styles {
        Styles::Any => random.bytes(2),
        _ if random.once_in(2) => random.bytes(2),
        _ => int16(random.pick(&[400, 699, 700, 701, u16::MAX])),
    }
}

fn font_name(random: &mut Random, styles: Styles) -> Vec<u8> {
    let mut name = short_string(random);
    if let Styles::Any = styles {
        return name;
    }
    // the first byte is the length
    name[1..].iter_mut().for_each(|byte| *byte = (*byte).max(1));
    if name.len() > 1 && styles.fault(random) {
        let place = 1 + random.size(name.len() - 2);
        name[place] = 0;
    }
    name
}

fn short_string(random: &mut Random) -> Vec<u8> {
    let length = name_length(random);
    [vec![length as u8], random.bytes(length)].concat()
}

/// Now and then the letters of the default.
fn continuation(random: &mut Random) -> Vec<u8> {
    if random.once_in(8) {
        return b"\x07(Cont.)".to_vec();
    }
    short_string(random)
}

fn name_length(random: &mut Random) -> usize {
    match random.below(16) {
        0 => 255,
        1 => random.size(255),
        _ => random.size(6),
    }
}

/// A look for the writer and the bytes that hold its names.
pub struct LookToWrite {
    pub look: Look,
    pub names: Vec<u8>,
}

/// A look for the writer. With `faults`, some fields may be outside of what is accepted.
pub fn look_to_write(random: &mut Random, faults: bool) -> LookToWrite {
    let length = 260 + random.size(300);
    let names = random.bytes(length);
    let mut fields = LookFields { names: length, faults, random };
    let look = Look {
        version: fields.version(),
        flags: fields.number(),
        nested_row_labels: fields.bool(),
        footnote_marker_subscripts: fields.bool(),
        separators1: [(); 4].map(|_| fields.separator()),
        separators2: [(); 4].map(|_| fields.separator()),
        title_color: fields.area_color(),
        title_style: fields.area_style(),
        most_areas: [(); 7].map(|_| (fields.area_color(), fields.area_style())),
        v2: fields.v2(),
    };
    LookToWrite { look, names }
}

struct LookFields<'a> {
    /// Number of bytes that hold the names.
    names: usize,
    faults: bool,
    random: &'a mut Random,
}

impl LookFields<'_> {
    /// True now and then, if faults are asked for.
    fn fault(&mut self) -> bool {
        self.faults && self.random.once_in(40)
    }

    fn number(&mut self) -> u16 {
        self.random.next_number() as u16
    }

    fn bool(&mut self) -> bool {
        self.random.once_in(2)
    }

    fn version(&mut self) -> u8 {
        if self.fault() {
            return self.random.byte();
        }
        LOOK_VERSION
    }

    fn color(&mut self) -> u32 {
        let color = self.random.next_number() as u32;
        if self.fault() {
            color
        } else {
            color & 0x00ff_ffff
        }
    }

    fn separator(&mut self) -> Separator {
        if self.bool() {
            return Separator::NotDrawn;
        }
        Separator::Drawn { color: self.color(), style: self.number(), width: self.number() }
    }

    fn area_color(&mut self) -> AreaColor {
        let most = if self.fault() { 20 } else { 10 };
        AreaColor {
            color10: self.color(),
            color0: self.color(),
            shading: self.random.size(most) as u8,
        }
    }

    fn name(&mut self) -> Name {
        if self.fault() {
            return Name { place: number(self.random), length: number(self.random) };
        }
        if self.fault() {
            return Name { place: self.random.size(self.names) as u32, length: 255 };
        }
        let length = name_length(self.random);
        let place = self.random.size(self.names - length);
        Name { place: place as u32, length: length as u32 }
    }

    fn area_style(&mut self) -> AreaStyle {
        AreaStyle {
            valign: self.number(),
            halign: self.number(),
            decimal_offset: self.number(),
            left_margin: self.number(),
            right_margin: self.number(),
            top_margin: self.number(),
            bottom_margin: self.number(),
            font_size: number(self.random) as i32,
            stretch: self.number(),
            rotation_angle: number(self.random),
            weight: self.number(),
            italic: self.bool(),
            underline: self.bool(),
            strikethrough: self.bool(),
            rtf_charset_number: number(self.random),
            x: self.random.byte(),
            font_name: self.name(),
            text_color: self.color(),
        }
    }

    fn continuation(&mut self) -> Continuation {
        if self.random.once_in(4) {
            return Continuation::Default;
        }
        Continuation::Stored(self.name())
    }

    fn v2(&mut self) -> V2Styles {
        V2Styles {
            separators: [(); 11].map(|_| self.separator()),
            continuation: self.continuation(),
            min_col_width: number(self.random),
            max_col_width: number(self.random),
            min_row_height: number(self.random),
            max_row_height: number(self.random),
        }
    }
}
