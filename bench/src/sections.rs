//! Areas, Borders, PrintSettings, TableSettings and Formats.

use crate::cursor::Cursor;
use crate::refusal::*;
use crate::value::style_pair;
use crate::version::Version;

pub fn areas(cursor: &mut Cursor, version: Version) -> Result<(), Refusal> {
    cursor.optional_byte(0x00);
    (1..=8).try_for_each(|index| area(cursor, version, index))
}

fn area(cursor: &mut Cursor, version: Version, index: u8) -> Result<(), Refusal> {
    cursor.fixed_byte(index)?;
    cursor.fixed_byte(0x31)?;
    cursor.string()?;
    cursor.float()?;
    cursor.int32()?;
    cursor.bool()?;
    cursor.int32()?;
    cursor.int32()?;
    cursor.string()?;
    cursor.string()?;
    cursor.bool()?;
    cursor.string()?;
    cursor.string()?;
    match version {
        Version::One => Ok(()),
        Version::Three => margins(cursor),
    }
}

fn margins(cursor: &mut Cursor) -> Result<(), Refusal> {
    for _ in 0..4 {
        cursor.int32()?;
    }
    Ok(())
}

pub fn borders(cursor: &mut Cursor) -> Result<(), Refusal> {
    let mut region = cursor.count()?;
    region.fixed_be32(1)?;
    let count = region.be32()?;
    for _ in 0..count {
        border(&mut region)?;
    }
    region.bool()?;
    region.fixed_bytes(&[0; 3])?;
    region.region_end()
}

fn border(cursor: &mut Cursor) -> Result<(), Refusal> {
    for _ in 0..3 {
        cursor.be32()?;
    }
    Ok(())
}

pub fn print_settings(cursor: &mut Cursor) -> Result<(), Refusal> {
    let mut region = cursor.count()?;
    region.fixed_be32(1)?;
    for _ in 0..6 {
        region.bool()?;
    }
    region.be32()?;
    region.bestring()?;
    region.region_end()
}

/// The bytes after the look's name are free; in version 1 all bytes of the region are.
pub fn table_settings(cursor: &mut Cursor, version: Version) -> Result<(), Refusal> {
    let mut region = cursor.count()?;
    match version {
        Version::One => Ok(()),
        Version::Three => table_settings_content(&mut region),
    }
}

fn table_settings_content(cursor: &mut Cursor) -> Result<(), Refusal> {
    cursor.fixed_be32(1)?;
    cursor.be32()?;
    cursor.be32()?;
    for _ in 0..4 {
        cursor.bool()?;
    }
    cursor.byte()?;
    breaks_and_keeps(cursor)?;
    cursor.bestring()?;
    cursor.bestring()?;
    Ok(())
}

fn breaks_and_keeps(cursor: &mut Cursor) -> Result<(), Refusal> {
    let mut region = cursor.becount()?;
    // Breakpoints, Keeps and PointKeeps, each for rows and for columns.
    for numbers_per_entry in [1, 1, 2, 2, 3, 3] {
        be32_entries(&mut region, numbers_per_entry)?;
    }
    region.region_end()
}

fn be32_entries(cursor: &mut Cursor, numbers_per_entry: u32) -> Result<(), Refusal> {
    let count = cursor.be32()?;
    for _ in 0..count {
        for _ in 0..numbers_per_entry {
            cursor.be32()?;
        }
    }
    Ok(())
}

pub fn formats(cursor: &mut Cursor, version: Version) -> Result<(), Refusal> {
    int32_entries(cursor)?;
    cursor.string()?;
    cursor.int32()?;
    for _ in 0..3 {
        cursor.bool()?;
    }
    y0(cursor)?;
    custom_currency(cursor)?;
    let mut region = cursor.count()?;
    match version {
        Version::One => optional_x0(&mut region)?,
        Version::Three => x1_to_x3(&mut region)?,
    }
    region.region_end()
}

/// X0 is there if the region has a byte.
fn optional_x0(cursor: &mut Cursor) -> Result<(), Refusal> {
    if cursor.has_byte() {
        x0(cursor)?;
    }
    Ok(())
}

fn x0(cursor: &mut Cursor) -> Result<(), Refusal> {
    for _ in 0..14 {
        cursor.byte()?;
    }
    y1(cursor)?;
    y2(cursor)
}

fn y1(cursor: &mut Cursor) -> Result<(), Refusal> {
    for _ in 0..5 {
        cursor.string()?;
    }
    for _ in 0..4 {
        cursor.bool()?;
    }
    y0(cursor)
}

fn y2(cursor: &mut Cursor) -> Result<(), Refusal> {
    custom_currency(cursor)?;
    cursor.byte()?;
    cursor.bool()?;
    Ok(())
}

fn x1_to_x3(cursor: &mut Cursor) -> Result<(), Refusal> {
    x1_and_x2(cursor)?;
    // X3: a region with free content.
    cursor.count()?;
    Ok(())
}

fn int32_entries(cursor: &mut Cursor) -> Result<(), Refusal> {
    let count = cursor.int32()?;
    for _ in 0..count {
        cursor.int32()?;
    }
    Ok(())
}

fn y0(cursor: &mut Cursor) -> Result<(), Refusal> {
    cursor.int32()?;
    cursor.byte()?;
    cursor.byte()?;
    Ok(())
}

fn custom_currency(cursor: &mut Cursor) -> Result<(), Refusal> {
    let count = cursor.int32()?;
    for _ in 0..count {
        cursor.string()?;
    }
    Ok(())
}

fn x1_and_x2(cursor: &mut Cursor) -> Result<(), Refusal> {
    let mut region = cursor.count()?;
    x1(&mut region)?;
    x2(&mut region)?;
    region.region_end()
}

fn x1(cursor: &mut Cursor) -> Result<(), Refusal> {
    cursor.bool()?;
    cursor.byte()?;
    cursor.bool()?;
    for _ in 0..3 {
        cursor.byte()?;
    }
    cursor.int32()?;
    cursor.int32()?;
    cursor.fixed_bytes(&[0; 17])?;
    cursor.bool()?;
    cursor.bool()?;
    Ok(())
}

fn x2(cursor: &mut Cursor) -> Result<(), Refusal> {
    let mut region = cursor.count()?;
    int32_entries(&mut region)?;
    style_map(&mut region)?;
    style_pairs(&mut region)?;
    x2_ending(&mut region)?;
    region.region_end()
}

fn style_map(cursor: &mut Cursor) -> Result<(), Refusal> {
    let count = cursor.int32()?;
    for _ in 0..count {
        cursor.int64()?;
        cursor.int16()?;
    }
    Ok(())
}

fn style_pairs(cursor: &mut Cursor) -> Result<(), Refusal> {
    let count = cursor.int32()?;
    for _ in 0..count {
        style_pair(cursor)?;
    }
    Ok(())
}

fn x2_ending(cursor: &mut Cursor) -> Result<(), Refusal> {
    let mut region = cursor.count()?;
    if region.has_byte() {
        region.fixed_int32(0)?;
        region.fixed_int32(0)?;
    }
    region.region_end()
}
