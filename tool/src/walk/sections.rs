//! The sections from Header to Formats.

use super::cursor::{said, Answer, Cursor, Span, Step};
use super::value::{style_pair, value};
use super::{Kept, Version, FOOTNOTES};

pub fn header(cursor: &mut Cursor) -> Answer<Version> {
    cursor.fixed_byte("first byte", 0x01)?;
    cursor.fixed_byte("second byte", 0x00)?;
    let version = version(cursor)?;
    for name in ["x0", "x1", "rotate inner column labels", "rotate outer row labels", "x2"] {
        cursor.bool(name)?;
    }
    let widths = [
        "x3",
        "min column heading width",
        "max column heading width",
        "min row heading width",
        "max row heading width",
    ];
    for name in widths {
        cursor.int32(name)?;
    }
    cursor.int64("table id")?;
    Ok(version)
}

fn version(cursor: &mut Cursor) -> Answer<Version> {
    let place = cursor.place;
    let number = cursor.int32("version")?;
    Version::from_number(number).ok_or_else(|| {
        let said = said("version 1 or 3", number.to_string());
        cursor.stop(4, "version", Span { place, length: 4 }, said)
    })
}

pub fn titles(cursor: &mut Cursor, version: Version, kept: &mut Kept) -> Answer<()> {
    value(cursor, version, "title")?;
    cursor.optional_byte(0x01);
    value(cursor, version, "subtype")?;
    cursor.optional_byte(0x01);
    cursor.fixed_byte("31 before the user title", 0x31)?;
    kept.title = value(cursor, version, "user title")?;
    cursor.optional_byte(0x01);
    optional_value(cursor, version, "mark of the corner text", "corner text")?;
    optional_value(cursor, version, "mark of the caption", "caption")
}

/// 31 and a Value, or 58.
fn optional_value(
    cursor: &mut Cursor,
    version: Version,
    mark: &'static str,
    name: &'static str,
) -> Answer<()> {
    if cursor.mark(mark)? {
        value(cursor, version, name)?;
    }
    Ok(())
}

pub fn footnotes(cursor: &mut Cursor, version: Version) -> Answer<()> {
    let count = cursor.limited_count("number of footnotes", FOOTNOTES)?;
    cursor.each("footnote", count, |cursor| {
        value(cursor, version, "text")?;
        optional_value(cursor, version, "mark of the marker", "marker")?;
        cursor.int32("show").map(drop)
    })
}

pub fn areas(cursor: &mut Cursor, version: Version) -> Answer<()> {
    cursor.optional_byte(0x00);
    (1..=8).try_for_each(|index| {
        cursor.inside(Step::Nth("area", index.into()), |cursor| area(cursor, version, index))
    })
}

fn area(cursor: &mut Cursor, version: Version, index: u8) -> Answer<()> {
    cursor.fixed_byte("index", index)?;
    cursor.fixed_byte("31 after the index", 0x31)?;
    cursor.string("typeface")?;
    cursor.float("size")?;
    cursor.int32("style")?;
    cursor.bool("underline")?;
    cursor.int32("horizontal alignment")?;
    cursor.int32("vertical alignment")?;
    cursor.string("foreground color")?;
    cursor.string("background color")?;
    cursor.bool("alternate")?;
    cursor.string("alternate foreground color")?;
    cursor.string("alternate background color")?;
    if version == Version::Three {
        for name in ["left margin", "right margin", "top margin", "bottom margin"] {
            cursor.int32(name)?;
        }
    }
    Ok(())
}

pub fn borders(cursor: &mut Cursor) -> Answer<()> {
    cursor.region("region", |cursor| {
        cursor.fixed_be32("endian", 1)?;
        let count = cursor.be32("number of borders")?;
        cursor.each("border", count, |cursor| {
            cursor.be32("border type")?;
            cursor.be32("stroke type")?;
            cursor.be32("color").map(drop)
        })?;
        cursor.bool("show grid lines")?;
        (0..3).try_for_each(|_| cursor.fixed_byte("00 after the grid lines", 0))
    })
}

pub fn print_settings(cursor: &mut Cursor) -> Answer<()> {
    cursor.region("region", |cursor| {
        cursor.fixed_be32("endian", 1)?;
        let bools = [
            "all layers",
            "paginate layers",
            "fit width",
            "fit length",
            "top continuation",
            "bottom continuation",
        ];
        for name in bools {
            cursor.bool(name)?;
        }
        cursor.be32("number of orphan lines")?;
        cursor.bestring("continuation string").map(drop)
    })
}

pub fn table_settings(cursor: &mut Cursor, version: Version) -> Answer<()> {
    cursor.region("region", |cursor| {
        if version == Version::Three {
            table_settings_content(cursor)?;
        }
        cursor.rest();
        Ok(())
    })
}

fn table_settings_content(cursor: &mut Cursor) -> Answer<()> {
    cursor.fixed_be32("endian", 1)?;
    cursor.be32("x5")?;
    cursor.be32("current layer")?;
    let bools = [
        "omit empty",
        "show row labels in corner",
        "show alphabetic markers",
        "footnote marker superscripts",
    ];
    for name in bools {
        cursor.bool(name)?;
    }
    cursor.byte("x6")?;
    cursor.be_region("breaks and keeps", |cursor| {
        let lists = [
            ("row breaks", 1),
            ("column breaks", 1),
            ("row keeps", 2),
            ("column keeps", 2),
            ("row point keeps", 3),
            ("column point keeps", 3),
        ];
        lists.into_iter().try_for_each(|(name, numbers)| be32_entries(cursor, name, numbers))
    })?;
    cursor.bestring("notes")?;
    cursor.bestring("table look").map(drop)
}

fn be32_entries(cursor: &mut Cursor, name: &'static str, numbers: u32) -> Answer<()> {
    cursor.inside(Step::Part(name), |cursor| {
        let count = cursor.be32("count")?;
        cursor.each("entry", count, |cursor| {
            (0..numbers).try_for_each(|_| cursor.be32("number").map(drop))
        })
    })
}

pub fn formats(cursor: &mut Cursor, version: Version, kept: &mut Kept) -> Answer<()> {
    int32_entries(cursor, "widths")?;
    kept.locale = cursor.string("locale")?;
    cursor.int32("current layer")?;
    for name in ["x7", "x8", "x9"] {
        cursor.bool(name)?;
    }
    y0(cursor)?;
    custom_currency(cursor)?;
    cursor.region("region", |cursor| match version {
        Version::One => x0(cursor, kept),
        Version::Three => x1_to_x3(cursor, kept),
    })
}

/// X0 is there if the region has a byte.
fn x0(cursor: &mut Cursor, kept: &mut Kept) -> Answer<()> {
    if !cursor.has_byte() {
        return Ok(());
    }
    cursor.inside(Step::Part("X0"), |cursor| {
        (0..14).try_for_each(|_| cursor.byte("first bytes").map(drop))?;
        kept.charset = cursor.inside(Step::Part("Y1"), y1)?;
        custom_currency(cursor)?;
        cursor.byte("missing")?;
        cursor.bool("x17").map(drop)
    })
}

/// Gives the charset.
fn y1(cursor: &mut Cursor) -> Answer<Span> {
    let charset = y1_strings(cursor)?;
    for name in ["x10", "include leading zero", "x12", "x13"] {
        cursor.bool(name)?;
    }
    y0(cursor)?;
    Ok(charset)
}

/// The strings of Y1, of which it gives the charset.
pub fn y1_strings(cursor: &mut Cursor) -> Answer<Span> {
    for name in ["command", "command local", "language"] {
        cursor.string(name)?;
    }
    let charset = cursor.string("charset")?;
    cursor.string("locale")?;
    Ok(charset)
}

fn y0(cursor: &mut Cursor) -> Answer<()> {
    cursor.int32("epoch")?;
    cursor.byte("decimal")?;
    cursor.byte("grouping").map(drop)
}

fn custom_currency(cursor: &mut Cursor) -> Answer<()> {
    let count = cursor.int32("number of custom currencies")?;
    cursor.each("custom currency", count, |cursor| cursor.string("format").map(drop))
}

fn int32_entries(cursor: &mut Cursor, name: &'static str) -> Answer<()> {
    cursor.inside(Step::Part(name), |cursor| {
        let count = cursor.int32("count")?;
        cursor.each("entry", count, |cursor| cursor.int32("number").map(drop))
    })
}

fn x1_to_x3(cursor: &mut Cursor, kept: &mut Kept) -> Answer<()> {
    cursor.region("X1 and X2", |cursor| {
        cursor.inside(Step::Part("X1"), |cursor| x1(cursor, kept))?;
        cursor.region("X2", x2)
    })?;
    // its content is free
    kept.x3 = cursor.region("X3", |cursor| Ok(cursor.rest()))?;
    Ok(())
}

fn x1(cursor: &mut Cursor, kept: &mut Kept) -> Answer<()> {
    cursor.bool("x14")?;
    cursor.byte("show title")?;
    cursor.bool("x16")?;
    cursor.byte("lang")?;
    kept.show_variables = cursor.byte("show variables")?;
    kept.show_values = cursor.byte("show values")?;
    cursor.int32("x18")?;
    cursor.int32("x19")?;
    (0..17).try_for_each(|_| cursor.fixed_byte("00 after x19", 0))?;
    cursor.bool("x20")?;
    cursor.bool("show caption").map(drop)
}

fn x2(cursor: &mut Cursor) -> Answer<()> {
    int32_entries(cursor, "row heights")?;
    let styles = cursor.int32("number of style maps")?;
    cursor.each("style map", styles, |cursor| {
        cursor.int64("cell index")?;
        cursor.int16("style index").map(drop)
    })?;
    let pairs = cursor.int32("number of styles")?;
    cursor.each("style", pairs, style_pair)?;
    cursor.region("last region", |cursor| {
        if cursor.has_byte() {
            cursor.fixed_int32("first 0", 0)?;
            cursor.fixed_int32("second 0", 0)?;
        }
        Ok(())
    })
}
