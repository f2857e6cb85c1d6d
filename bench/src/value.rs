//! Value, Argument, ValueMod and the styles inside it.

use crate::cursor::{Cursor, Span};
use crate::limits::VALUE_DEPTH;
use crate::refusal::*;
use crate::version::Version;

/// The most zero bytes before a raw form, but for a cell's own Value.
const ZEROS: usize = 4;

/// A Value that is not part of another Value.
pub fn value(cursor: &mut Cursor, version: Version) -> Result<Span, Refusal> {
    value_at_depth(cursor, version, 1)
}

/// A cell's own Value, with all the zero bytes before it.
pub fn cell_value(cursor: &mut Cursor, version: Version) -> Result<Span, Refusal> {
    value_after_zeros(cursor, version, version.cell_zeros(), 1)
}

pub(crate) fn value_at_depth(
    cursor: &mut Cursor,
    version: Version,
    depth: u32,
) -> Result<Span, Refusal> {
    refuse_if(depth > VALUE_DEPTH, LIMIT, cursor.place())?;
    value_after_zeros(cursor, version, ZEROS, depth)
}

/// A Value at `depth` with at most `zeros` zero bytes before its raw form.
fn value_after_zeros(
    cursor: &mut Cursor,
    version: Version,
    zeros: usize,
    depth: u32,
) -> Result<Span, Refusal> {
    let place = cursor.place();
    cursor.zero_run(zeros);
    raw_value(cursor, version, depth)?;
    Ok(cursor.span_from(place))
}

fn raw_value(cursor: &mut Cursor, version: Version, depth: u32) -> Result<(), Refusal> {
    let place = cursor.place();
    match cursor.byte()? {
        0x01 => number(cursor, version),
        0x02 => labelled_number(cursor, version),
        0x03 => text_with_fixed(cursor, version),
        0x04 => labelled_string(cursor, version),
        0x05 => variable(cursor, version),
        0x06 => text(cursor, version),
        0x31 => {
            long_value_mod(cursor, version, place)?;
            template(cursor, version, depth)
        }
        0x58 => template(cursor, version, depth),
        _ => Err(Refusal::new(FIXED_DIFFERS, place)),
    }
}

fn number(cursor: &mut Cursor, version: Version) -> Result<(), Refusal> {
    value_mod(cursor, version)?;
    cursor.int32()?;
    cursor.double()?;
    Ok(())
}

fn labelled_number(cursor: &mut Cursor, version: Version) -> Result<(), Refusal> {
    number(cursor, version)?;
    cursor.string()?;
    cursor.string()?;
    cursor.byte()?;
    Ok(())
}

fn text_with_fixed(cursor: &mut Cursor, version: Version) -> Result<(), Refusal> {
    text(cursor, version)?;
    cursor.bool()?;
    Ok(())
}

fn labelled_string(cursor: &mut Cursor, version: Version) -> Result<(), Refusal> {
    value_mod(cursor, version)?;
    cursor.int32()?;
    cursor.string()?;
    cursor.string()?;
    cursor.byte()?;
    cursor.string()?;
    Ok(())
}

fn variable(cursor: &mut Cursor, version: Version) -> Result<(), Refusal> {
    value_mod(cursor, version)?;
    cursor.string()?;
    cursor.string()?;
    cursor.byte()?;
    Ok(())
}

fn text(cursor: &mut Cursor, version: Version) -> Result<(), Refusal> {
    cursor.string()?;
    value_mod(cursor, version)?;
    cursor.string()?;
    cursor.string()?;
    Ok(())
}

/// A template after its ValueMod.
fn template(cursor: &mut Cursor, version: Version, depth: u32) -> Result<(), Refusal> {
    cursor.string()?;
    let arguments = cursor.int32()?;
    for _ in 0..arguments {
        argument(cursor, version, depth)?;
    }
    Ok(())
}

/// An argument of a template that stands at `depth`.
pub(crate) fn argument(cursor: &mut Cursor, version: Version, depth: u32) -> Result<(), Refusal> {
    let values = cursor.int32()?;
    if values == 0 {
        value_at_depth(cursor, version, depth + 1)?;
        return Ok(());
    }
    cursor.fixed_int32(0)?;
    for _ in 0..values {
        value_at_depth(cursor, version, depth + 1)?;
    }
    Ok(())
}

pub(crate) fn value_mod(cursor: &mut Cursor, version: Version) -> Result<(), Refusal> {
    let place = cursor.place();
    if cursor.mark()? {
        long_value_mod(cursor, version, place)?;
    }
    Ok(())
}

/// A ValueMod after its first byte 31, which stands at `place`. Version 1 is without it.
pub(crate) fn long_value_mod(
    cursor: &mut Cursor,
    version: Version,
    place: usize,
) -> Result<(), Refusal> {
    refuse_if(version == Version::One, VERSION, place)?;
    let references = cursor.int32()?;
    for _ in 0..references {
        cursor.int16()?;
    }
    let subscripts = cursor.int32()?;
    for _ in 0..subscripts {
        cursor.string()?;
    }
    let mut region = cursor.count()?;
    template_string(&mut region)?;
    style_pair(&mut region)?;
    region.region_end()
}

fn template_string(cursor: &mut Cursor) -> Result<(), Refusal> {
    let mut region = cursor.count()?;
    if region.has_byte() {
        template_string_prefix(&mut region)?;
        if region.mark()? {
            region.string()?;
        }
    }
    region.region_end()
}

/// The inner counted region of a TemplateString.
fn template_string_prefix(cursor: &mut Cursor) -> Result<(), Refusal> {
    let mut region = cursor.count()?;
    if region.has_byte() {
        region.fixed_int32(0)?;
        if region.mark()? {
            region.fixed_byte(0x55)?;
        }
    }
    region.region_end()
}

pub fn style_pair(cursor: &mut Cursor) -> Result<(), Refusal> {
    if cursor.mark()? {
        font_style(cursor)?;
    }
    if cursor.mark()? {
        cell_style(cursor)?;
    }
    Ok(())
}

fn font_style(cursor: &mut Cursor) -> Result<(), Refusal> {
    for _ in 0..4 {
        cursor.bool()?;
    }
    for _ in 0..3 {
        cursor.string()?;
    }
    cursor.byte()?;
    Ok(())
}

fn cell_style(cursor: &mut Cursor) -> Result<(), Refusal> {
    cursor.int32()?;
    cursor.int32()?;
    cursor.double()?;
    for _ in 0..4 {
        cursor.int16()?;
    }
    Ok(())
}

#[cfg(test)]
mod tests {
    use super::*;

    fn template_after_zeros(zeros: usize) -> Vec<u8> {
        let mut bytes = vec![0; zeros];
        bytes.push(0x58);
        bytes.extend([0; 8]);
        bytes
    }

    fn read(bytes: &[u8]) -> Result<Span, Refusal> {
        value(&mut Cursor::new(bytes), Version::Three)
    }

    #[test]
    fn shortest_template_has_9_bytes() {
        assert_eq!(read(&template_after_zeros(0)), Ok(Span { place: 0, length: 9 }));
    }

    #[test]
    fn four_zeros_belong_to_the_value() {
        assert_eq!(read(&template_after_zeros(4)), Ok(Span { place: 0, length: 13 }));
    }

    #[test]
    fn the_fifth_zero_is_refused() {
        assert_eq!(read(&template_after_zeros(5)), Err(Refusal::new(FIXED_DIFFERS, 4)));
    }

    #[test]
    fn a_value_needs_a_first_byte() {
        assert_eq!(read(&[0, 0]), Err(Refusal::new(DOES_NOT_FIT, 2)));
    }

    /// Templates with one argument each, `depth` of them one inside the other.
    fn nested(depth: usize) -> Vec<u8> {
        let mut bytes = Vec::new();
        for _ in 1..depth {
            bytes.extend([0x58, 0, 0, 0, 0, 1, 0, 0, 0, 0, 0, 0, 0]);
        }
        bytes.extend(template_after_zeros(0));
        bytes
    }

    #[test]
    fn values_nest_8_deep() {
        assert!(read(&nested(8)).is_ok());
        assert_eq!(read(&nested(9)), Err(Refusal::new(LIMIT, 8 * 13)));
    }

    #[test]
    fn a_value_too_deep_is_refused_without_a_byte() {
        assert_eq!(read(&nested(9)[..8 * 13]), Err(Refusal::new(LIMIT, 8 * 13)));
    }

    #[test]
    fn a_large_argument_count_stops_at_the_first_refusal() {
        let bytes = [0x58, 0, 0, 0, 0, 0xff, 0xff, 0xff, 0xff];
        assert_eq!(read(&bytes), Err(Refusal::new(DOES_NOT_FIT, 9)));
    }

    #[test]
    fn several_values_need_the_number_0() {
        let mut bytes = vec![0x58, 0, 0, 0, 0, 1, 0, 0, 0, 2, 0, 0, 0, 1, 0, 0, 0];
        bytes.extend(template_after_zeros(0));
        assert_eq!(read(&bytes), Err(Refusal::new(FIXED_DIFFERS, 13)));
    }
}
