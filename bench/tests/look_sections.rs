//! Areas and Borders of a member, made from looks. What is expected is worked out from the papers.

use std::fs;

use digarumbi_bench::damage::damaged;
use digarumbi_bench::generate::{look_bytes, styled_look_bytes};
use digarumbi_bench::look::*;
use digarumbi_bench::member::{read_member, section_ends};
use digarumbi_bench::random::Random;
use digarumbi_bench::refusal::*;

/// The root of the repository.
const ROOT: &str = concat!(env!("CARGO_MANIFEST_DIR"), "/..");
/// Where PVSeparatorStyle's first separator stands.
const SEPARATORS: usize = 57;
/// Bytes of an area and of all borders without the fonts' names.
const AREA: usize = 70;
const BORDERS: usize = 244;
/// Where the colors and the margins of an area stand, in an area whose font has no name.
const COLORS: usize = 1 + 1 + 4 + 4 + 4 + 1 + 4 + 4;
const MARGINS: usize = AREA - 16;
const SHORTEST: usize = 8 * AREA + BORDERS;
const LONGEST: usize = SHORTEST + 8 * 255;

/// A style that has a meaning, with an empty name.
fn style() -> AreaStyle {
    AreaStyle { font_size: -12, weight: 400, ..AreaStyle::default() }
}

fn look() -> Look {
    let v2 = V2Styles {
        separators: [Separator::NotDrawn; 11],
        continuation: Continuation::Stored(Name::default()),
        ..V2Styles::default()
    };
    let most_areas = [(AreaColor::default(), style()); 7];
    Look { version: LOOK_VERSION, title_style: style(), most_areas, v2, ..Look::default() }
}

/// The version 02 file of a look whose names lie in `names`.
fn file(look: &Look, names: &[u8]) -> Vec<u8> {
    let mut file = vec![0; 4_000];
    let length = write_look(look, names, &mut file).unwrap();
    file.truncate(length);
    file
}

/// The sections, or the refusal; checks that the output is only changed by the sections.
fn made(file: &[u8], length: usize) -> Result<Vec<u8>, Refusal> {
    let mut out = vec![0xa5; length];
    let result = look_sections(file, &mut out);
    let written = result.unwrap_or(0);
    assert!(out[written..].iter().all(|&byte| byte == 0xa5));
    result.map(|written| out[..written].to_vec())
}

fn sections(look: &Look) -> Vec<u8> {
    made(&file(look, &[]), LONGEST).unwrap()
}

fn refused(look: &Look, names: &[u8]) -> Refusal {
    made(&file(look, names), LONGEST).unwrap_err()
}

fn drawn(color: u32, style: u16, width: u16) -> Separator {
    Separator::Drawn { color, style, width }
}

#[test]
fn the_title_of_a_look() {
    let mut look = look();
    look.title_color = AreaColor { color10: 0x0030_20ff, color0: 0x0000_0a00, shading: 5 };
    look.title_style = AreaStyle {
        valign: 1,
        halign: 4,
        decimal_offset: 77,
        left_margin: 60,
        right_margin: 19,
        top_margin: 1_459,
        bottom_margin: 65_535,
        font_size: -1_000_000,
        weight: 700,
        italic: true,
        underline: true,
        strikethrough: true,
        font_name: Name { place: 1, length: 5 },
        text_color: 0x00ab_cdef,
        ..AreaStyle::default()
    };
    let expected = [
        // the index; the name; 1,000,000 as a float; bold and italic; underlined
        &b"\x01\x31\x05\0\0\0Arial\0\x24\x74\x49\x03\0\0\0\x01"[..],
        // decimal, bottom
        &61_453_u32.to_le_bytes(),
        &3_u32.to_le_bytes(),
        // half of both: red 255 / 2, green (32 + 10) / 2, blue 48 / 2
        b"\x07\0\0\0#efcdab\x07\0\0\0#7f1518\0\0\0\0\0\0\0\0\0",
        // 3, 0, 72 and 3,276 points
        &[4_u32, 0, 96, 4_358].map(u32::to_le_bytes).concat(),
    ]
    .concat();
    let made = made(&file(&look, b"(Arial)"), LONGEST).unwrap();
    assert_eq!(made.len(), SHORTEST + 5);
    assert_eq!(made[..AREA + 5], expected);
}

/// By their numbers in 003: each area has its own color of text.
#[test]
fn areas_by_number() {
    let mut look = look();
    look.title_style.text_color = 1;
    // layers, corner, row labels, column labels, data, caption, footer
    for (color, (_, style)) in (2..).zip(&mut look.most_areas) {
        style.text_color = color;
    }
    let made = sections(&look);
    for (number, color) in (1..).zip([1, 7, 8, 3, 5, 4, 6, 2]) {
        let area = &made[AREA * (number - 1)..][..AREA];
        assert_eq!(usize::from(area[0]), number);
        assert_eq!(area[COLORS..][..11], *format!("\x07\0\0\0#{color:02x}0000").as_bytes());
    }
}

fn alignments(halign: u16, valign: u16) -> [u32; 2] {
    let mut look = look();
    look.title_style = AreaStyle { halign, valign, ..style() };
    let made = sections(&look);
    [0, 4].map(|place| u32::from_le_bytes(made[COLORS - 8 + place..][..4].try_into().unwrap()))
}

#[test]
fn every_alignment() {
    for (halign, expected) in (0..).zip([2, 4, 0, 64_173, 61_453]) {
        assert_eq!(alignments(halign, 0), [expected, 1]);
    }
    for (valign, expected) in (0..).zip([1, 3, 0]) {
        assert_eq!(alignments(0, valign), [2, expected]);
    }
}

#[test]
fn weights() {
    for (weight, italic, expected) in [
        (0, false, 0),
        (699, false, 0),
        (700, false, 1),
        (u16::MAX, false, 1),
        (699, true, 2),
        (700, true, 3),
    ] {
        let mut look = look();
        look.title_style = AreaStyle { weight, italic, ..style() };
        assert_eq!(sections(&look)[10..15], [expected, 0, 0, 0, 0]);
    }
}

#[test]
fn font_heights() {
    // 1, 12, 999,999 and 1,000,000 as floats
    for (size, bits) in [
        (-1, 0x3f80_0000_u32),
        (-12, 0x4140_0000),
        (-999_999, 0x4974_23f0),
        (-1_000_000, 0x4974_2400),
    ] {
        let mut look = look();
        look.title_style.font_size = size;
        assert_eq!(sections(&look)[6..10], bits.to_le_bytes());
    }
}

#[test]
fn shadings() {
    for (shading, expected) in [
        (0, "#ff0007"),
        (1, "#e51906"),
        (3, "#b24c05"),
        (7, "#4cb202"),
        (9, "#19e501"),
        (10, "#00ff01"),
    ] {
        let mut look = look();
        look.title_color = AreaColor { color10: 0x0001_ff00, color0: 0x0007_00ff, shading };
        let color = &sections(&look)[COLORS + 11 + 4..][..7];
        assert_eq!(String::from_utf8_lossy(color), expected, "{shading}");
    }
}

#[test]
fn margins() {
    for (twentieths, pixels) in
        [(0, 0), (19, 0), (20, 2), (39, 2), (40, 3), (60, 4), (1_440, 96), (32_768, 2_179)]
    {
        let mut look = look();
        look.title_style.top_margin = twentieths;
        let expected = [0, 0, pixels, 0].map(u32::to_le_bytes).concat();
        assert_eq!(sections(&look)[MARGINS..AREA], expected);
    }
}

/// Number, stroke and color of each border.
fn borders(made: &[u8]) -> Vec<[u32; 3]> {
    let borders = &made[made.len() - BORDERS..];
    assert_eq!(borders[..12], *b"\xf0\0\0\0\0\0\0\x01\0\0\0\x13");
    assert_eq!(borders[BORDERS - 4..], [0; 4]);
    let number = |bytes: &[u8]| u32::from_be_bytes(bytes.try_into().unwrap());
    let entries = borders[12..BORDERS - 4].chunks(12);
    entries.map(|entry| [0, 4, 8].map(|place| number(&entry[place..place + 4]))).collect()
}

#[test]
fn nothing_drawn() {
    let expected: Vec<[u32; 3]> = (0..19).map(|number| [number, 0, 0xff00_0000]).collect();
    assert_eq!(borders(&sections(&look())), expected);
}

/// By their numbers in 003: each separator has its own color.
#[test]
fn borders_by_number() {
    let mut look = look();
    let separators = look.separators1.iter_mut().chain(&mut look.separators2);
    for (color, separator) in (0..).zip(separators.chain(&mut look.v2.separators)) {
        *separator = drawn(0x0078_5600 + color, 0, 1);
    }
    // rows are 0 to 3, columns 4 to 7, the title 8, the inner frame 9 to 12, the outer 13 to 16
    let order = [8, 13, 15, 14, 16, 9, 11, 10, 12, 17, 18, 0, 1, 4, 5, 2, 3, 6, 7];
    let expected: Vec<[u32; 3]> =
        (0..).zip(order).map(|(number, red)| [number, 1, 0xff00_5678 + (red << 16)]).collect();
    assert_eq!(borders(&sections(&look)), expected);
}

#[test]
fn every_stroke() {
    for (style, width, stroke) in [
        (0, 0, 4),
        (0, 1, 1),
        (0, 2, 3),
        (0, 3, 3),
        (1, 0, 5),
        (1, 1, 5),
        (2, 0, 2),
        (2, 9, 2),
        (2, u16::MAX, 2),
    ] {
        let mut look = look();
        look.v2.separators[0] = drawn(0, style, width);
        assert_eq!(borders(&sections(&look))[0], [0, stroke, 0xff00_0000]);
    }
}

/// A version 00 file has no V2Styles: the inner frame is solid, the other borders of these no line.
#[test]
fn a_file_of_version_00() {
    let mut file = file(&look(), &[]);
    file.truncate(674);
    file[17] = 0;
    let made = made(&file, LONGEST).unwrap();
    let stroke = |number| u32::from((5..=8).contains(&number));
    let expected: Vec<[u32; 3]> =
        (0..19).map(|number| [number, stroke(number), 0xff00_0000]).collect();
    assert_eq!(borders(&made), expected);
    assert_eq!(made[..8 * AREA], sections(&look())[..8 * AREA]);
}

#[test]
fn lengths() {
    let shortest = file(&look(), &[]);
    assert_eq!(made(&shortest, SHORTEST).unwrap().len(), 804);
    assert_eq!(made(&shortest, SHORTEST - 1), Err(Refusal::new(15, 0)));
    let mut look = look();
    let styles = look.most_areas.iter_mut().map(|(_, style)| style);
    for style in styles.chain([&mut look.title_style]) {
        style.font_name = Name { place: 0, length: 255 };
    }
    let longest = file(&look, &[7; 255]);
    assert_eq!(made(&longest, LONGEST).unwrap().len(), 2_844);
    assert_eq!(made(&longest, LONGEST - 1), Err(Refusal::new(15, 0)));
}

#[test]
fn separators_without_a_meaning() {
    for (style, width) in [(0, 4), (1, 2), (3, 0), (256, 0), (0, 256), (u16::MAX, u16::MAX)] {
        let mut look = look();
        look.separators1[2] = drawn(0, style, width);
        assert_eq!(refused(&look, &[]), Refusal::new(29, SEPARATORS + 4));
    }
    let mut look = look();
    look.v2.separators[10] = drawn(0, 0, 4);
    assert_eq!(refused(&look, &[]), Refusal::new(29, 674 + 20));
}

/// Each refused field of the title, at its place; the ones before it in the file win.
#[test]
fn refusals_of_a_style() {
    let title = SEPARATORS + 19 + 17 + 13 + 18;
    let mut look = look();
    look.v2.separators[0] = drawn(0, 9, 0);
    assert_eq!(refused(&look, &[]), Refusal::new(29, 674));
    look.title_style.font_name = Name { place: 0, length: 3 };
    assert_eq!(refused(&look, b"A\0B"), Refusal::new(18, title + 46));
    for size in [0, 12, i32::MAX, i32::MIN, -1_000_001] {
        look.title_style.font_size = size;
        assert_eq!(refused(&look, b"A\0B"), Refusal::new(7, title + 18));
    }
    look.title_style.halign = 5;
    assert_eq!(refused(&look, b"A\0B"), Refusal::new(29, title + 2));
    look.title_style.valign = 3;
    assert_eq!(refused(&look, b"A\0B"), Refusal::new(29, title));
    look.separators2[3] = drawn(0, 1, 2);
    assert_eq!(refused(&look, b"A\0B"), Refusal::new(29, SEPARATORS + 8 + 3 + 6));
    // the look's own come first, wherever they stand
    let longer = [file(&look, b"A\0B"), vec![0]].concat();
    assert_eq!(made(&longer, 0), Err(Refusal::new(11, longer.len() - 1)));
}

/// The refused fields are those at the places that the reader gives: a drawn separator, alignments,
/// sizes and names of one letter.
#[test]
fn every_place() {
    let mut look = look();
    let line = drawn(0, 0, 1);
    (look.separators1, look.separators2, look.v2.separators) = ([line; 4], [line; 4], [line; 11]);
    let styles = look.most_areas.iter_mut().map(|(_, style)| style);
    for style in styles.chain([&mut look.title_style]) {
        style.font_name = Name { place: 0, length: 1 };
    }
    let file = file(&look, b"A");
    let (_, places) = read_with_places(&file).unwrap();
    let separators = places.separators1.iter().chain(&places.separators2);
    for &place in separators.chain(&places.v2_separators) {
        assert_eq!(made_with(&file, place + 6, &[3]), Err(Refusal::new(29, place)));
    }
    for places in places.most_areas.iter().chain([&places.title_style]) {
        assert_eq!(made_with(&file, places.valign, &[3]), Err(Refusal::new(29, places.valign)));
        assert_eq!(made_with(&file, places.halign, &[5]), Err(Refusal::new(29, places.halign)));
        let size = places.font_size;
        assert_eq!(made_with(&file, size, &[0; 4]), Err(Refusal::new(7, size)));
        let name = places.font_name;
        assert_eq!(made_with(&file, name + 1, &[0]), Err(Refusal::new(18, name)));
    }
}

/// What is made from a file with other bytes at a place.
fn made_with(file: &[u8], place: usize, bytes: &[u8]) -> Result<Vec<u8>, Refusal> {
    let mut file = file.to_vec();
    file[place..place + bytes.len()].copy_from_slice(bytes);
    assert!(read_look(&file).is_ok());
    made(&file, LONGEST)
}

/// In the place of a real member's own sections, what is made gives a member with the same records
/// but for their places.
#[test]
fn in_a_member() {
    let member = fs::read(format!("{ROOT}/examples/spine_18.bin")).unwrap();
    let (ends, refusal) = section_ends(&member);
    assert_eq!(refusal, None);
    for seed in 0..2_000 {
        let look = styled_look_bytes(&mut Random::new(seed));
        let Ok(made) = made(&look, LONGEST) else { continue };
        let new = [&member[..ends[2]], &made, &member[ends[4]..]].concat();
        let moved = |place: &mut u32| *place = *place + new.len() as u32 - member.len() as u32;
        let (mut nodes, mut cells) = read(&member);
        nodes.iter_mut().skip(3).step_by(7).for_each(moved);
        cells.iter_mut().skip(1).step_by(3).for_each(moved);
        assert_eq!(read(&new), (nodes, cells));
    }
}

/// The node and cell records of a member with 9 nodes and 10 cells.
fn read(member: &[u8]) -> (Vec<u32>, Vec<u32>) {
    let (mut nodes, mut cells) = (vec![0; 7 * 9], vec![0; 3 * 10]);
    assert_eq!(read_member(member, &mut nodes, &mut cells).refusal, 0);
    (nodes, cells)
}

#[test]
fn generated_looks_are_refused_or_made() {
    let mut numbers = [0; 30];
    for seed in 0..20_000 {
        let mut random = Random::new(seed);
        let mut file =
            if seed % 4 == 0 { look_bytes(&mut random) } else { styled_look_bytes(&mut random) };
        if seed % 8 == 7 {
            file = damaged(&file, &mut random);
        }
        let length = random.pick(&[0, SHORTEST, LONGEST, LONGEST]);
        match made(&file, length) {
            Ok(_) => numbers[0] += 1,
            Err(refusal) => numbers[refusal.number as usize] += 1,
        }
        if let Err(refusal) = read_look(&file) {
            assert_eq!(made(&file, length), Err(refusal));
        }
    }
    println!("number of looks for each refusal number: {numbers:?}");
    assert!([0, 2, 3, 7, 11, 15, 18, 29].iter().all(|&number: &usize| numbers[number] > 0));
}
