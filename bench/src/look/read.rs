//! Reads a look.

use super::{
    AreaColor, AreaStyle, Continuation, Look, Name, Places, Separator, StylePlaces, V2Styles,
    LOOK_VERSION,
};
use crate::cursor::Cursor;
use crate::refusal::*;

/// Reads a look. The places of its names count from the start of these bytes.
pub fn read_look(bytes: &[u8]) -> Result<Look, Refusal> {
    read_with_places(bytes).map(|(look, _)| look)
}

/// Reads a look, and says where some of its fields stand.
pub fn read_with_places(bytes: &[u8]) -> Result<(Look, Places), Refusal> {
    let mut cursor = Cursor::new(bytes);
    let mut look = Look { version: LOOK_VERSION, ..Look::default() };
    let mut places = Places::default();
    let version = table_look(&mut cursor, &mut look)?;
    separator_style(&mut cursor, &mut look, &mut places)?;
    cell_style(&mut cursor, &mut look)?;
    text_style(&mut cursor, &mut look, &mut places)?;
    if version == 2 {
        look.v2 = v2_styles(&mut cursor, &mut places.v2_separators)?;
    }
    cursor.input_end()?;
    Ok((look, places))
}

/// The version of an accepted look's file, which stands after the length and the letters of
/// `PTTableLook`.
pub fn file_version(bytes: &[u8]) -> Result<u8, Refusal> {
    let mut cursor = Cursor::new(bytes);
    section_name(&mut cursor, b"PTTableLook")?;
    version(&mut cursor)
}

fn section_name(cursor: &mut Cursor, letters: &[u8]) -> Result<(), Refusal> {
    cursor.fixed_bytes(&[0xff, 0xff, 0x00, 0x00])?;
    cursor.class_name(letters)
}

/// Gives the version of the file.
fn table_look(cursor: &mut Cursor, look: &mut Look) -> Result<u8, Refusal> {
    section_name(cursor, b"PTTableLook")?;
    let version = version(cursor)?;
    look.flags = cursor.int16()?;
    cursor.fixed_bytes(&[0x00, 0x00])?;
    look.nested_row_labels = cursor.bool()?;
    cursor.fixed_byte(0x00)?;
    look.footnote_marker_subscripts = cursor.bool()?;
    cursor.fixed_byte(0x00)?;
    cursor.fixed_int32(54)?;
    cursor.fixed_int32(18)?;
    Ok(version)
}

fn version(cursor: &mut Cursor) -> Result<u8, Refusal> {
    let place = cursor.place();
    let version = cursor.byte()?;
    refuse_if(version != 0 && version != 2, VERSION, place)?;
    Ok(version)
}

fn separator_style(
    cursor: &mut Cursor,
    look: &mut Look,
    places: &mut Places,
) -> Result<(), Refusal> {
    section_name(cursor, b"PVSeparatorStyle")?;
    cursor.fixed_byte(0x00)?;
    look.separators1 = separators(cursor, &mut places.separators1)?;
    cursor.fixed_bytes(&[0x03, 0x80, 0x00])?;
    look.separators2 = separators(cursor, &mut places.separators2)?;
    Ok(())
}

fn separators<const N: usize>(
    cursor: &mut Cursor,
    places: &mut [usize; N],
) -> Result<[Separator; N], Refusal> {
    let mut separators = [Separator::NotDrawn; N];
    for (entry, place) in separators.iter_mut().zip(places) {
        *place = cursor.place();
        *entry = separator(cursor)?;
    }
    Ok(separators)
}

fn separator(cursor: &mut Cursor) -> Result<Separator, Refusal> {
    let place = cursor.place();
    let kind = cursor.byte()?;
    refuse_if(kind > 1, FIXED_DIFFERS, place)?;
    cursor.fixed_byte(0x00)?;
    if kind == 0 {
        return Ok(Separator::NotDrawn);
    }
    let color = color(cursor)?;
    let style = cursor.int16()?;
    let width = cursor.int16()?;
    Ok(Separator::Drawn { color, style, width })
}

fn color(cursor: &mut Cursor) -> Result<u32, Refusal> {
    let place = cursor.place();
    let color = cursor.int32()?;
    refuse_if(color >> 24 != 0, COLOR, place)?;
    Ok(color)
}

fn cell_style(cursor: &mut Cursor, look: &mut Look) -> Result<(), Refusal> {
    section_name(cursor, b"PVCellStyle")?;
    look.title_color = area_color(cursor)?;
    Ok(())
}

fn area_color(cursor: &mut Cursor) -> Result<AreaColor, Refusal> {
    cursor.fixed_bytes(&[0x00, 0x01, 0x00])?;
    let color10 = color(cursor)?;
    let color0 = color(cursor)?;
    let shading = shading(cursor)?;
    cursor.fixed_byte(0x00)?;
    Ok(AreaColor { color10, color0, shading })
}

fn shading(cursor: &mut Cursor) -> Result<u8, Refusal> {
    let place = cursor.place();
    let shading = cursor.byte()?;
    refuse_if(shading > 10, LIMIT, place)?;
    Ok(shading)
}

fn text_style(cursor: &mut Cursor, look: &mut Look, places: &mut Places) -> Result<(), Refusal> {
    section_name(cursor, b"PVTextStyle")?;
    cursor.fixed_byte(0x00)?;
    look.title_style = area_style(cursor, &mut places.title_style)?;
    for ((color, style), places) in look.most_areas.iter_mut().zip(&mut places.most_areas) {
        cursor.fixed_bytes(&[0x06, 0x80])?;
        *color = area_color(cursor)?;
        cursor.fixed_bytes(&[0x08, 0x80, 0x00])?;
        *style = area_style(cursor, places)?;
    }
    Ok(())
}

fn area_style(cursor: &mut Cursor, places: &mut StylePlaces) -> Result<AreaStyle, Refusal> {
    places.valign = cursor.place();
    let valign = cursor.int16()?;
    places.halign = cursor.place();
    let halign = cursor.int16()?;
    let mut style = AreaStyle {
        valign,
        halign,
        decimal_offset: cursor.int16()?,
        left_margin: cursor.int16()?,
        right_margin: cursor.int16()?,
        top_margin: cursor.int16()?,
        bottom_margin: cursor.int16()?,
        ..AreaStyle::default()
    };
    cursor.fixed_bytes(&[0x00, 0x00, 0x01, 0x00])?;
    font(cursor, &mut style, places)?;
    style.text_color = color(cursor)?;
    cursor.fixed_bytes(&[0x00; 2])?;
    Ok(style)
}

fn font(
    cursor: &mut Cursor,
    style: &mut AreaStyle,
    places: &mut StylePlaces,
) -> Result<(), Refusal> {
    places.font_size = cursor.place();
    style.font_size = cursor.int32()? as i32;
    style.stretch = cursor.int16()?;
    cursor.fixed_bytes(&[0x00; 2])?;
    style.rotation_angle = cursor.int32()?;
    cursor.fixed_bytes(&[0x00; 4])?;
    style.weight = cursor.int16()?;
    cursor.fixed_bytes(&[0x00; 2])?;
    style.italic = cursor.bool()?;
    style.underline = cursor.bool()?;
    style.strikethrough = cursor.bool()?;
    style.rtf_charset_number = cursor.int32()?;
    style.x = cursor.byte()?;
    places.font_name = cursor.place();
    style.font_name = name(cursor)?;
    Ok(())
}

fn name(cursor: &mut Cursor) -> Result<Name, Refusal> {
    let span = cursor.short_string()?;
    Ok(Name { place: span.place as u32, length: span.length as u32 })
}

fn v2_styles(cursor: &mut Cursor, places: &mut [usize; 11]) -> Result<V2Styles, Refusal> {
    Ok(V2Styles {
        separators: separators(cursor, places)?,
        continuation: Continuation::Stored(name(cursor)?),
        min_col_width: cursor.int32()?,
        max_col_width: cursor.int32()?,
        min_row_height: cursor.int32()?,
        max_row_height: cursor.int32()?,
    })
}
