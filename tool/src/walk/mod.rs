//! A reader of members and looks that keeps the path of productions to the place it reads.
//!
//! It says where one stops being one and why, in words, and keeps the few fields of a member that
//! the library does not give. It decides nothing: what is accepted, the library says.

mod cursor;
mod look;
mod sections;
mod table;
#[cfg(test)]
mod tests;
mod value;

pub use cursor::{Span, Step, Stop};
pub use look::walk_look;

use cursor::{said, Cursor};

// The sizes of docs/RULES.md.
const MEMBER_BYTES: usize = 1_048_576;
const DIMENSIONS: u32 = 16;
const FOOTNOTES: u32 = 256;
const NODES: u32 = 4_096;
const CELLS: u32 = 4_096;
const VALUE_DEPTH: u32 = 8;
const CATEGORY_DEPTH: u32 = 8;
const PLACES: u64 = 4_294_967_295;

/// The version of a member.
#[derive(Clone, Copy, Debug, PartialEq, Eq)]
pub enum Version {
    One,
    Three,
}

impl Version {
    fn from_number(number: u32) -> Option<Version> {
        match number {
            1 => Some(Version::One),
            3 => Some(Version::Three),
            _ => None,
        }
    }

    /// The most zero bytes before the raw form of a cell's Value.
    fn cell_zeros(self) -> usize {
        match self {
            Version::One => 5,
            Version::Three => 4,
        }
    }
}

/// The fields that are kept.
#[derive(Clone, Copy, Debug, Default, PartialEq, Eq)]
pub struct Kept {
    /// The Value of the title as the user sees it.
    pub title: Span,
    /// The locale of Formats.
    pub locale: Span,
    /// The charset of version 1; version 3 has it in X3.
    pub charset: Span,
    pub x3: Span,
    /// How variables and values with a label are shown: 0 or 2 by the label, 1 without, 3 by both.
    pub show_variables: u8,
    pub show_values: u8,
}

/// What was read of a member.
pub struct Walked {
    /// As far as it was read.
    pub kept: Kept,
    /// Where it stops being one.
    pub answer: Result<(), Box<Stop>>,
}

/// Reads a member.
pub fn walk(member: &[u8]) -> Walked {
    let mut kept = Kept::default();
    let answer = walk_sections(member, &mut kept);
    Walked { kept, answer }
}

fn walk_sections(member: &[u8], kept: &mut Kept) -> Result<(), Box<Stop>> {
    let mut cursor = Cursor::new(member);
    if member.len() > MEMBER_BYTES {
        let said = said(format!("{MEMBER_BYTES} bytes at most"), "more");
        return Err(cursor.stop(1, "whole file", Span { place: 0, length: 1 }, said));
    }
    let part = Step::Part;
    let version = cursor.inside(part("Header"), sections::header)?;
    cursor.inside(part("Titles"), |cursor| sections::titles(cursor, version, kept))?;
    cursor.inside(part("Footnotes"), |cursor| sections::footnotes(cursor, version))?;
    cursor.inside(part("Areas"), |cursor| sections::areas(cursor, version))?;
    cursor.inside(part("Borders"), sections::borders)?;
    cursor.inside(part("PrintSettings"), sections::print_settings)?;
    cursor.inside(part("TableSettings"), |cursor| sections::table_settings(cursor, version))?;
    cursor.inside(part("Formats"), |cursor| sections::formats(cursor, version, kept))?;
    let leaves = cursor.inside(part("Dimensions"), |cursor| table::dimensions(cursor, version))?;
    let places = cursor.inside(part("Axes"), |cursor| table::axes(cursor, &leaves))?;
    cursor.inside(part("Cells"), |cursor| table::cells(cursor, version, places))?;
    cursor.optional_byte(0x01);
    cursor.input_end()
}

impl Kept {
    /// The bytes of the charset, if the member has one. In version 3 it is the fourth string of Y1,
    /// after six bytes of X3; since X3 is free, there may be none.
    pub fn charset_bytes<'a>(&self, member: &'a [u8]) -> &'a [u8] {
        const BEFORE_Y1: usize = 6;
        let y1 = self.x3.of(member).get(BEFORE_Y1..).unwrap_or_default();
        match sections::y1_strings(&mut Cursor::new(y1)) {
            Ok(charset) => charset.of(y1),
            Err(_) => self.charset.of(member),
        }
    }
}
