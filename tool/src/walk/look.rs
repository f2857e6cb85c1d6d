//! Looks, by 002's productions.

use super::cursor::{said, Answer, Cursor, Span, Step, Stop};

/// Reads a look: gives where it stops being one.
pub fn walk_look(look: &[u8]) -> Result<(), Box<Stop>> {
    let mut cursor = Cursor::new(look);
    let part = Step::Part;
    let version = cursor.inside(part("PTTableLook"), table_look)?;
    cursor.inside(part("PVSeparatorStyle"), separator_style)?;
    cursor.inside(part("PVCellStyle"), |cursor| {
        section_name(cursor, "PVCellStyle")?;
        area_color(cursor)
    })?;
    cursor.inside(part("PVTextStyle"), text_style)?;
    if version == 2 {
        cursor.inside(part("V2Styles"), v2_styles)?;
    }
    cursor.input_end()
}

fn section_name(cursor: &mut Cursor, letters: &'static str) -> Answer<()> {
    cursor.fixed_bytes("first bytes", &[0xff, 0xff, 0x00, 0x00])?;
    cursor.class_name(letters)
}

/// Gives the version.
fn table_look(cursor: &mut Cursor) -> Answer<u8> {
    section_name(cursor, "PTTableLook")?;
    let is_version = |byte| byte == 0 || byte == 2;
    let version = cursor.tested_byte("version", 4, "version 00 or 02", is_version)?;
    cursor.int16("flags")?;
    cursor.fixed_bytes("00 after the flags", &[0, 0])?;
    cursor.bool("nested row labels")?;
    cursor.fixed_byte("00 after nested row labels", 0)?;
    cursor.bool("footnote marker subscripts")?;
    cursor.fixed_byte("00 after footnote marker subscripts", 0)?;
    cursor.fixed_int32("54", 54)?;
    cursor.fixed_int32("18", 18)?;
    Ok(version)
}

fn separator_style(cursor: &mut Cursor) -> Answer<()> {
    section_name(cursor, "PVSeparatorStyle")?;
    cursor.fixed_byte("00 before the separators", 0)?;
    cursor.each("row separator", 4, separator)?;
    cursor.fixed_bytes("03 80 00 between the separators", &[0x03, 0x80, 0x00])?;
    cursor.each("column separator", 4, separator)
}

fn separator(cursor: &mut Cursor) -> Answer<()> {
    let expected = "00 for not drawn or 01 for drawn";
    let drawn = cursor.tested_byte("type", 3, expected, |byte| byte <= 1)?;
    cursor.fixed_byte("00 after the type", 0)?;
    if drawn == 1 {
        cursor.color("color")?;
        cursor.int16("style")?;
        cursor.int16("width")?;
    }
    Ok(())
}

fn area_color(cursor: &mut Cursor) -> Answer<()> {
    cursor.fixed_bytes("00 01 00 before the colors", &[0x00, 0x01, 0x00])?;
    cursor.color("color10")?;
    cursor.color("color0")?;
    cursor.tested_byte("shading", 7, "shading from 00 to 0a", |byte| byte <= 10)?;
    cursor.fixed_byte("00 after the shading", 0)
}

fn text_style(cursor: &mut Cursor) -> Answer<()> {
    section_name(cursor, "PVTextStyle")?;
    cursor.fixed_byte("00 before the styles", 0)?;
    cursor.inside(Step::Part("title"), area_style)?;
    const AREAS: [&str; 7] =
        ["layers", "corner", "row labels", "column labels", "data", "caption", "footer"];
    for area in AREAS {
        cursor.inside(Step::Part(area), |cursor| {
            cursor.fixed_bytes("06 80 before the color", &[0x06, 0x80])?;
            area_color(cursor)?;
            cursor.fixed_bytes("08 80 00 before the style", &[0x08, 0x80, 0x00])?;
            area_style(cursor)
        })?;
    }
    Ok(())
}

fn area_style(cursor: &mut Cursor) -> Answer<()> {
    const NUMBERS: [&str; 7] = [
        "vertical alignment",
        "horizontal alignment",
        "decimal offset",
        "left margin",
        "right margin",
        "top margin",
        "bottom margin",
    ];
    for name in NUMBERS {
        cursor.int16(name)?;
    }
    cursor.fixed_bytes("00 00 01 00 before the font", &[0x00, 0x00, 0x01, 0x00])?;
    font(cursor)?;
    cursor.color("text color")?;
    cursor.fixed_bytes("00 after the text color", &[0; 2])
}

fn font(cursor: &mut Cursor) -> Answer<()> {
    cursor.int32("font size")?;
    cursor.int16("stretch")?;
    cursor.fixed_bytes("00 after the stretch", &[0; 2])?;
    cursor.int32("rotation angle")?;
    cursor.fixed_bytes("00 after the rotation angle", &[0; 4])?;
    cursor.int16("weight")?;
    cursor.fixed_bytes("00 after the weight", &[0; 2])?;
    for name in ["italic", "underline", "strikethrough"] {
        cursor.bool(name)?;
    }
    cursor.int32("rtf charset number")?;
    cursor.byte("x")?;
    cursor.short_string("font name")
}

fn v2_styles(cursor: &mut Cursor) -> Answer<()> {
    cursor.each("separator", 11, separator)?;
    cursor.short_string("continuation")?;
    for name in ["min column width", "max column width", "min row height", "max row height"] {
        cursor.int32(name)?;
    }
    Ok(())
}

impl Cursor<'_> {
    /// A run of fixed bytes, each its own field.
    fn fixed_bytes(&mut self, name: &'static str, fixed: &[u8]) -> Answer<()> {
        fixed.iter().try_for_each(|&byte| self.fixed_byte(name, byte))
    }

    /// A class name: its length, then its letters.
    fn class_name(&mut self, letters: &'static str) -> Answer<()> {
        let place = self.place;
        let length = self.int16("length of the class name")?;
        if usize::from(length) != letters.len() {
            let said = said(format!("the number {}", letters.len()), length.to_string());
            let field = Span { place, length: 2 };
            return Err(self.stop(3, "length of the class name", field, said));
        }
        let place = self.place;
        let expected = format!("the letters {letters}");
        if self.field("class name", letters.len(), &expected)? == letters.as_bytes() {
            return Ok(());
        }
        let field = Span { place, length: letters.len() };
        Err(self.stop(3, "class name", field, said(expected, "other letters")))
    }

    fn color(&mut self, name: &'static str) -> Answer<()> {
        let place = self.place;
        let color = self.int32(name)?;
        if color >> 24 == 0 {
            return Ok(());
        }
        let said = said("a color, whose fourth byte is 00", format!("{:02x}", color >> 24));
        Err(self.stop(14, name, Span { place, length: 4 }, said))
    }

    /// A name whose length is one byte.
    fn short_string(&mut self, name: &'static str) -> Answer<()> {
        let start = self.place;
        let length = self.byte(name)?;
        self.field(name, length.into(), "a name").map(drop).map_err(|mut stop| {
            // the length and the letters are one field
            stop.field = Span { place: start, length: 1 + stop.field.length };
            stop
        })
    }
}
