//! Areas and Borders of a version 3 member, made from a look (02, T-12).

use super::{read_with_places, AreaColor, AreaStyle, Look, Places, Separator, StylePlaces};
use crate::encode::{be32, be32s, count, int32, int32s, string};
use crate::refusal::*;
use crate::units::{self, pt_to_px, Pt};

/// The highest font that is accepted, in 96ths of an inch.
const HIGHEST_FONT: u32 = 1_000_000;
/// The lightest weight that is bold.
const BOLD: u16 = 700;
const OPAQUE: u32 = 0xff00_0000;
const NO_LINE: u32 = 0;

/// Reads a look's file and writes the two sections. Returns their length. The output stays as it is
/// after a refusal, and beyond the sections.
pub fn look_sections(file: &[u8], out: &mut [u8]) -> Result<usize, Refusal> {
    let (look, places) = read_with_places(file)?;
    test(&look, &places, file)?;
    let sections = [areas(&look, file), borders(&look)].concat();
    let output = out.get_mut(..sections.len()).ok_or(Refusal::new(OUTPUT_TOO_SHORT, 0))?;
    output.copy_from_slice(&sections);
    Ok(sections.len())
}

/// What has no meaning in 002 or no place in 003, in the order of the file.
fn test(look: &Look, places: &Places, file: &[u8]) -> Result<(), Refusal> {
    test_separators(&look.separators1, &places.separators1)?;
    test_separators(&look.separators2, &places.separators2)?;
    test_style(&look.title_style, &places.title_style, file)?;
    for ((_, style), places) in look.most_areas.iter().zip(&places.most_areas) {
        test_style(style, places, file)?;
    }
    // the defaults of a file without V2Styles have a meaning
    test_separators(&look.v2.separators, &places.v2_separators)
}

fn test_separators(separators: &[Separator], places: &[usize]) -> Result<(), Refusal> {
    let mut both = separators.iter().zip(places);
    both.try_for_each(|(separator, &place)| {
        refuse_if(stroke(separator).is_none(), NO_MEANING, place)
    })
}

fn test_style(style: &AreaStyle, places: &StylePlaces, file: &[u8]) -> Result<(), Refusal> {
    refuse_if(valign(style.valign).is_none(), NO_MEANING, places.valign)?;
    refuse_if(halign(style.halign).is_none(), NO_MEANING, places.halign)?;
    refuse_if(font_height(style.font_size).is_none(), LIMIT, places.font_size)?;
    refuse_if(font_name(style, file).contains(&0), ZERO_BYTE, places.font_name)
}

/// The number of 003's stroke: no line, solid, dashed, thick, thin, double.
fn stroke(separator: &Separator) -> Option<u32> {
    let Separator::Drawn { style, width, .. } = *separator else { return Some(NO_LINE) };
    match (style, width) {
        (0, 0) => Some(4),
        (0, 1) => Some(1),
        (0, 2 | 3) => Some(3),
        (1, 0 | 1) => Some(5),
        (2, _) => Some(2),
        _ => None,
    }
}

/// Top, bottom, center.
fn valign(valign: u16) -> Option<u32> {
    [1, 3, 0].get(usize::from(valign)).copied()
}

/// Left, right, center, mixed, decimal.
fn halign(halign: u16) -> Option<u32> {
    [2, 4, 0, 64_173, 61_453].get(usize::from(halign)).copied()
}

/// In pixels, which are 96ths of an inch as the look's.
fn font_height(size: i32) -> Option<u32> {
    units::font_height(size).ok().filter(|&height| height <= HIGHEST_FONT)
}

fn font_name<'a>(style: &AreaStyle, file: &'a [u8]) -> &'a [u8] {
    style.font_name.bytes(file).expect("a name of this file")
}

/// A field of a look that was tested.
fn tested<T>(field: Option<T>) -> T {
    field.expect("a field with a meaning")
}

/// Title, caption, footer, corner, column labels, row labels, data, layers.
fn areas(look: &Look, file: &[u8]) -> Vec<u8> {
    let [layers, corner, row_labels, column_labels, data, caption, footer] = look.most_areas;
    let title = (look.title_color, look.title_style);
    let areas = [title, caption, footer, corner, column_labels, row_labels, data, layers];
    let numbered = (1..).zip(areas);
    numbered.flat_map(|(index, (color, style))| area(index, &color, &style, file)).collect()
}

fn area(index: u8, color: &AreaColor, style: &AreaStyle, file: &[u8]) -> Vec<u8> {
    let height = tested(font_height(style.font_size));
    let bits = u32::from(style.weight >= BOLD) + 2 * u32::from(style.italic);
    let margins =
        [style.left_margin, style.right_margin, style.top_margin, style.bottom_margin].map(pixels);
    [
        vec![index, 0x31],
        string(font_name(style, file)),
        int32((height as f32).to_bits()),
        int32(bits),
        vec![u8::from(style.underline)],
        int32s(&[tested(halign(style.halign)), tested(valign(style.valign))]),
        string(hex(parts(style.text_color)).as_bytes()),
        string(hex(background(color)).as_bytes()),
        // no alternate rows, and no colors for them
        vec![0],
        string(b""),
        string(b""),
        int32s(&margins),
    ]
    .concat()
}

/// 20ths of a point in pixels.
fn pixels(twentieths: u16) -> u32 {
    pt_to_px(Pt(u32::from(twentieths) / 20)).expect("few points").0
}

/// Red, green and blue; red is the low byte.
fn parts(color: u32) -> [u8; 3] {
    let [red, green, blue, _] = color.to_le_bytes();
    [red, green, blue]
}

fn hex([red, green, blue]: [u8; 3]) -> String {
    format!("#{red:02x}{green:02x}{blue:02x}")
}

/// Shaded, part by part.
fn background(color: &AreaColor) -> [u8; 3] {
    let (color10, color0) = (parts(color.color10), parts(color.color0));
    let shading = u16::from(color.shading);
    let mixed = |part: usize| {
        let sum = shading * u16::from(color10[part]) + (10 - shading) * u16::from(color0[part]);
        (sum / 10) as u8
    };
    [0, 1, 2].map(mixed)
}

fn borders(look: &Look) -> Vec<u8> {
    let numbered = (0..).zip(by_number(look));
    let entries = numbered.flat_map(|(number, separator)| border(number, &separator));
    // the endianness and the number of borders before them; no grid lines, and three bytes, after
    let content = [be32s(&[1, 19]), entries.collect(), vec![0; 4]];
    count(&content.concat())
}

/// The separators in the order of 003's border numbers.
fn by_number(look: &Look) -> [Separator; 19] {
    let [rows, columns] = [look.separators1, look.separators2];
    let [title, inner @ .., outer_left, outer_right, outer_top, outer_bottom, left, top] =
        look.v2.separators;
    let [inner_left, inner_right, inner_top, inner_bottom] = inner;
    [
        title,
        outer_left,
        outer_top,
        outer_right,
        outer_bottom,
        inner_left,
        inner_top,
        inner_right,
        inner_bottom,
        left,
        top,
        // dimensions, horizontal and vertical, of rows and of columns
        rows[0],
        rows[1],
        columns[0],
        columns[1],
        // categories likewise
        rows[2],
        rows[3],
        columns[2],
        columns[3],
    ]
}

fn border(number: u32, separator: &Separator) -> Vec<u8> {
    [be32(number), be32(tested(stroke(separator))), be32(opaque(separator))].concat()
}

/// Alpha, red, green, blue, from the high byte on; what isn't drawn is black.
fn opaque(separator: &Separator) -> u32 {
    let Separator::Drawn { color, .. } = *separator else { return OPAQUE };
    let [red, green, blue] = parts(color);
    u32::from_be_bytes([0xff, red, green, blue])
}
