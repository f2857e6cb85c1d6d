//! Writes a look.

use super::{AreaColor, AreaStyle, Continuation, Look, Name, Separator, V2Styles, LOOK_VERSION};
use crate::refusal::*;

/// Writes a look whose names lie in `names`, as a file of version 02. Returns its length.
/// The output stays as it is after a refusal, and beyond the look.
pub fn write_look(look: &Look, names: &[u8], out: &mut [u8]) -> Result<usize, Refusal> {
    let mut writer = Writer { bytes: Vec::new(), names };
    writer.table_look(look)?;
    writer.separator_style(look)?;
    writer.cell_style(look)?;
    writer.text_style(look)?;
    writer.v2_styles(&look.v2)?;
    let length = writer.bytes.len();
    let output = out.get_mut(..length).ok_or(Refusal::new(OUTPUT_TOO_SHORT, 0))?;
    output.copy_from_slice(&writer.bytes);
    Ok(length)
}

/// The bytes written so far, and the bytes that hold the names.
struct Writer<'a> {
    bytes: Vec<u8>,
    names: &'a [u8],
}

impl Writer<'_> {
    fn place(&self) -> usize {
        self.bytes.len()
    }

    fn fixed(&mut self, bytes: &[u8]) {
        self.bytes.extend(bytes);
    }

    fn byte(&mut self, byte: u8) {
        self.bytes.push(byte);
    }

    fn bool(&mut self, value: bool) {
        self.byte(u8::from(value));
    }

    fn int16(&mut self, number: u16) {
        self.fixed(&number.to_le_bytes());
    }

    fn int32(&mut self, number: u32) {
        self.fixed(&number.to_le_bytes());
    }

    fn section_name(&mut self, letters: &[u8]) {
        self.fixed(&[0xff, 0xff, 0x00, 0x00]);
        self.int16(letters.len() as u16);
        self.fixed(letters);
    }

    fn color(&mut self, color: u32) -> Result<(), Refusal> {
        refuse_if(color >> 24 != 0, COLOR, self.place())?;
        self.int32(color);
        Ok(())
    }

    fn name(&mut self, name: Name) -> Result<(), Refusal> {
        let place = self.place();
        refuse_if(name.length > 255, LIMIT, place)?;
        let bytes = name.bytes(self.names).ok_or(Refusal::new(DOES_NOT_FIT, place))?;
        self.byte(bytes.len() as u8);
        self.fixed(bytes);
        Ok(())
    }

    fn continuation(&mut self, continuation: Continuation) -> Result<(), Refusal> {
        match continuation {
            Continuation::Default => {
                self.fixed(b"\x07(Cont.)");
                Ok(())
            }
            Continuation::Stored(name) => self.name(name),
        }
    }

    fn table_look(&mut self, look: &Look) -> Result<(), Refusal> {
        self.section_name(b"PTTableLook");
        refuse_if(look.version != LOOK_VERSION, VERSION, self.place())?;
        self.byte(look.version);
        self.int16(look.flags);
        self.fixed(&[0x00, 0x00]);
        self.bool(look.nested_row_labels);
        self.byte(0x00);
        self.bool(look.footnote_marker_subscripts);
        self.byte(0x00);
        self.int32(54);
        self.int32(18);
        Ok(())
    }

    fn separator_style(&mut self, look: &Look) -> Result<(), Refusal> {
        self.section_name(b"PVSeparatorStyle");
        self.byte(0x00);
        self.separators(&look.separators1)?;
        self.fixed(&[0x03, 0x80, 0x00]);
        self.separators(&look.separators2)
    }

    fn separators(&mut self, separators: &[Separator]) -> Result<(), Refusal> {
        separators.iter().try_for_each(|separator| self.separator(separator))
    }

    fn separator(&mut self, separator: &Separator) -> Result<(), Refusal> {
        match *separator {
            Separator::NotDrawn => self.fixed(&[0x00, 0x00]),
            Separator::Drawn { color, style, width } => {
                self.fixed(&[0x01, 0x00]);
                self.color(color)?;
                self.int16(style);
                self.int16(width);
            }
        }
        Ok(())
    }

    fn cell_style(&mut self, look: &Look) -> Result<(), Refusal> {
        self.section_name(b"PVCellStyle");
        self.area_color(&look.title_color)
    }

    fn area_color(&mut self, color: &AreaColor) -> Result<(), Refusal> {
        self.fixed(&[0x00, 0x01, 0x00]);
        self.color(color.color10)?;
        self.color(color.color0)?;
        refuse_if(color.shading > 10, LIMIT, self.place())?;
        self.byte(color.shading);
        self.byte(0x00);
        Ok(())
    }

    fn text_style(&mut self, look: &Look) -> Result<(), Refusal> {
        self.section_name(b"PVTextStyle");
        self.byte(0x00);
        self.area_style(&look.title_style)?;
        for (color, style) in &look.most_areas {
            self.fixed(&[0x06, 0x80]);
            self.area_color(color)?;
            self.fixed(&[0x08, 0x80, 0x00]);
            self.area_style(style)?;
        }
        Ok(())
    }

    fn area_style(&mut self, style: &AreaStyle) -> Result<(), Refusal> {
        self.int16(style.valign);
        self.int16(style.halign);
        self.int16(style.decimal_offset);
        self.int16(style.left_margin);
        self.int16(style.right_margin);
        self.int16(style.top_margin);
        self.int16(style.bottom_margin);
        self.fixed(&[0x00, 0x00, 0x01, 0x00]);
        self.font(style)?;
        self.color(style.text_color)?;
        self.fixed(&[0x00; 2]);
        Ok(())
    }

    fn font(&mut self, style: &AreaStyle) -> Result<(), Refusal> {
        self.fixed(&style.font_size.to_le_bytes());
        self.int16(style.stretch);
        self.fixed(&[0x00; 2]);
        self.int32(style.rotation_angle);
        self.fixed(&[0x00; 4]);
        self.int16(style.weight);
        self.fixed(&[0x00; 2]);
        self.bool(style.italic);
        self.bool(style.underline);
        self.bool(style.strikethrough);
        self.int32(style.rtf_charset_number);
        self.byte(style.x);
        self.name(style.font_name)
    }

    fn v2_styles(&mut self, v2: &V2Styles) -> Result<(), Refusal> {
        self.separators(&v2.separators)?;
        self.continuation(v2.continuation)?;
        self.int32(v2.min_col_width);
        self.int32(v2.max_col_width);
        self.int32(v2.min_row_height);
        self.int32(v2.max_row_height);
        Ok(())
    }
}
