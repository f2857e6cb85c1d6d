//! Header, Titles and Footnotes.

use crate::cursor::Cursor;
use crate::limits::FOOTNOTES;
use crate::refusal::*;
use crate::value::value;
use crate::version::Version;

pub fn header(cursor: &mut Cursor) -> Result<Version, Refusal> {
    cursor.fixed_bytes(&[0x01, 0x00])?;
    let version = version(cursor)?;
    for _ in 0..5 {
        cursor.bool()?;
    }
    for _ in 0..5 {
        cursor.int32()?;
    }
    cursor.int64()?;
    Ok(version)
}

fn version(cursor: &mut Cursor) -> Result<Version, Refusal> {
    let place = cursor.place();
    Version::from_number(cursor.int32()?).ok_or(Refusal::new(VERSION, place))
}

pub fn titles(cursor: &mut Cursor, version: Version) -> Result<(), Refusal> {
    value(cursor, version)?;
    cursor.optional_byte(0x01);
    value(cursor, version)?;
    cursor.optional_byte(0x01);
    cursor.fixed_byte(0x31)?;
    value(cursor, version)?;
    cursor.optional_byte(0x01);
    optional_value(cursor, version)?;
    optional_value(cursor, version)
}

/// 31 and a Value, or 58.
fn optional_value(cursor: &mut Cursor, version: Version) -> Result<(), Refusal> {
    if cursor.mark()? {
        value(cursor, version)?;
    }
    Ok(())
}

pub fn footnotes(cursor: &mut Cursor, version: Version) -> Result<(), Refusal> {
    let place = cursor.place();
    let count = cursor.int32()?;
    refuse_if(count > FOOTNOTES, LIMIT, place)?;
    for _ in 0..count {
        footnote(cursor, version)?;
    }
    Ok(())
}

fn footnote(cursor: &mut Cursor, version: Version) -> Result<(), Refusal> {
    value(cursor, version)?;
    optional_value(cursor, version)?;
    cursor.int32()?;
    Ok(())
}
