//! Value, Argument, ValueMod and the styles inside it.

use super::cursor::{said, Answer, Cursor, Span, Step};
use super::{Version, VALUE_DEPTH};

/// The most zero bytes before a raw form, but for a cell's own Value.
const ZEROS: usize = 4;

/// A Value that is not part of another one.
pub fn value(cursor: &mut Cursor, version: Version, name: &'static str) -> Answer<Span> {
    cursor.inside(Step::Part(name), |cursor| value_at_depth(cursor, version, ZEROS, 1))
}

/// A cell's own Value, with all the zero bytes before it.
pub fn cell_value(cursor: &mut Cursor, version: Version) -> Answer<Span> {
    cursor.inside(Step::Part("value"), |cursor| {
        value_at_depth(cursor, version, version.cell_zeros(), 1)
    })
}

fn value_at_depth(cursor: &mut Cursor, version: Version, zeros: usize, depth: u32) -> Answer<Span> {
    let place = cursor.place;
    if depth > VALUE_DEPTH {
        let expected = format!("no Value: values nest {VALUE_DEPTH} deep at most");
        let said = said(expected, format!("a Value that is {depth} deep"));
        return Err(cursor.stop(7, "value", Span { place, length: 1 }, said));
    }
    for _ in 0..zeros {
        cursor.optional_byte(0);
    }
    raw_value(cursor, version, depth)?;
    Ok(cursor.span_from(place))
}

fn raw_value(cursor: &mut Cursor, version: Version, depth: u32) -> Answer<()> {
    let place = cursor.place;
    match cursor.form()? {
        0x01 => number(cursor, version),
        0x02 => {
            number(cursor, version)?;
            cursor.string("variable name")?;
            cursor.string("value label")?;
            cursor.byte("show").map(drop)
        }
        0x03 => {
            text(cursor, version)?;
            cursor.bool("fixed").map(drop)
        }
        0x04 => {
            value_mod(cursor, version)?;
            cursor.int32("format")?;
            cursor.string("value label")?;
            cursor.string("variable name")?;
            cursor.byte("show")?;
            cursor.string("string").map(drop)
        }
        0x05 => {
            value_mod(cursor, version)?;
            cursor.string("variable name")?;
            cursor.string("variable label")?;
            cursor.byte("show").map(drop)
        }
        0x06 => text(cursor, version),
        0x31 => {
            long_value_mod(cursor, version, place)?;
            template(cursor, version, depth)
        }
        _ => template(cursor, version, depth),
    }
}

fn number(cursor: &mut Cursor, version: Version) -> Answer<()> {
    value_mod(cursor, version)?;
    cursor.int32("format")?;
    cursor.double("number").map(drop)
}

fn text(cursor: &mut Cursor, version: Version) -> Answer<()> {
    cursor.string("local")?;
    value_mod(cursor, version)?;
    cursor.string("id")?;
    cursor.string("c").map(drop)
}

/// A template after its ValueMod.
fn template(cursor: &mut Cursor, version: Version, depth: u32) -> Answer<()> {
    cursor.string("template")?;
    let arguments = cursor.int32("number of arguments")?;
    cursor.each("argument", arguments, |cursor| argument(cursor, version, depth))
}

/// An argument of a template that stands at `depth`.
fn argument(cursor: &mut Cursor, version: Version, depth: u32) -> Answer<()> {
    let number = cursor.int32("number of values")?;
    if number > 0 {
        cursor.fixed_int32("0 after the number of values", 0)?;
    }
    cursor.each("value", number.max(1), |cursor| {
        value_at_depth(cursor, version, ZEROS, depth + 1).map(drop)
    })
}

fn value_mod(cursor: &mut Cursor, version: Version) -> Answer<()> {
    let place = cursor.place;
    if cursor.mark("ValueMod")? {
        long_value_mod(cursor, version, place)?;
    }
    Ok(())
}

/// A ValueMod after its first byte 31, which stands at `place`. Version 1 is without it.
fn long_value_mod(cursor: &mut Cursor, version: Version, place: usize) -> Answer<()> {
    if version == Version::One {
        let said = said("58: a version 1 member with the long ValueMod is not read", "31");
        return Err(cursor.stop(4, "ValueMod", Span { place, length: 1 }, said));
    }
    cursor.inside(Step::Part("ValueMod"), |cursor| {
        let references = cursor.int32("number of footnote references")?;
        cursor.each("footnote", references, |cursor| cursor.int16("reference").map(drop))?;
        let subscripts = cursor.int32("number of subscripts")?;
        cursor.each("subscript", subscripts, |cursor| cursor.string("text").map(drop))?;
        cursor.region("region", |cursor| {
            template_string(cursor)?;
            style_pair(cursor)
        })
    })
}

fn template_string(cursor: &mut Cursor) -> Answer<()> {
    cursor.region("TemplateString", |cursor| {
        if cursor.has_byte() {
            template_string_prefix(cursor)?;
            if cursor.mark("mark of id")? {
                cursor.string("id")?;
            }
        }
        Ok(())
    })
}

fn template_string_prefix(cursor: &mut Cursor) -> Answer<()> {
    cursor.region("inner region", |cursor| {
        if cursor.has_byte() {
            cursor.fixed_int32("0", 0)?;
            if cursor.mark("mark")? {
                cursor.fixed_byte("55 after the mark", 0x55)?;
            }
        }
        Ok(())
    })
}

pub fn style_pair(cursor: &mut Cursor) -> Answer<()> {
    if cursor.mark("mark of FontStyle")? {
        cursor.inside(Step::Part("FontStyle"), font_style)?;
    }
    if cursor.mark("mark of CellStyle")? {
        cursor.inside(Step::Part("CellStyle"), cell_style)?;
    }
    Ok(())
}

fn font_style(cursor: &mut Cursor) -> Answer<()> {
    for name in ["bold", "italic", "underline", "show"] {
        cursor.bool(name)?;
    }
    for name in ["foreground color", "background color", "typeface"] {
        cursor.string(name)?;
    }
    cursor.byte("size").map(drop)
}

fn cell_style(cursor: &mut Cursor) -> Answer<()> {
    cursor.int32("horizontal alignment")?;
    cursor.int32("vertical alignment")?;
    cursor.double("decimal offset")?;
    for name in ["left margin", "right margin", "top margin", "bottom margin"] {
        cursor.int16(name)?;
    }
    Ok(())
}
