//! Binary table looks.
//!
//! The fields are those of source document 002, under its names. In a file each class name that it
//! quotes has its length before its letters. Files of version 00 and 02 are read; those of version
//! 00 have no V2Styles, and come back as version 02 looks with 002's defaults. Files are written as
//! version 02 alone. A member's Areas and Borders are made from files of both.

mod words;

use crate::lent::{
    self, LONGEST_LOOK, LONGEST_SECTIONS, LOOK_ANSWER, LOOK_DEFAULT_CONTINUATION_LETTERS,
    LOOK_VERSION_PLACE, REWRITE_ANSWER, SECTIONS_ANSWER,
};
use crate::Refusal;
use words::Words;

#[derive(Clone, Debug, PartialEq, Eq)]
pub struct Look {
    /// Always 2, whatever the file's own version is; see [`Look::file_version`].
    pub version: u8,
    pub flags: u16,
    pub nested_row_labels: bool,
    pub footnote_marker_subscripts: bool,
    pub rows: Separators,
    pub columns: Separators,
    pub title: Area,
    pub layers: Area,
    pub corner: Area,
    pub row_labels: Area,
    pub column_labels: Area,
    pub data: Area,
    pub caption: Area,
    pub footer: Area,
    /// 002's defaults if the file is of version 00: the inner frame solid, the other separators not
    /// drawn, the default continuation, widths of 36 and 72, heights of 36 and 120.
    pub v2: V2Styles,
}

/// The separators of rows or of columns.
#[derive(Clone, Debug, PartialEq, Eq)]
pub struct Separators {
    pub horizontal_dimension: Separator,
    pub vertical_dimension: Separator,
    pub horizontal_category: Separator,
    pub vertical_category: Separator,
}

#[derive(Clone, Copy, Debug, PartialEq, Eq)]
pub enum Separator {
    NotDrawn,
    Drawn { color: u32, style: u16, width: u16 },
}

#[derive(Clone, Debug, PartialEq, Eq)]
pub struct Area {
    pub color10: u32,
    pub color0: u32,
    /// 0 is pure `color0`, 10 pure `color10`.
    pub shading: u8,
    pub valign: u16,
    pub halign: u16,
    /// In 20ths of a point, as the margins.
    pub decimal_offset: u16,
    pub left_margin: u16,
    pub right_margin: u16,
    pub top_margin: u16,
    pub bottom_margin: u16,
    /// In negative 96ths of an inch; see [`font_height`](crate::font_height).
    pub font_size: i32,
    pub stretch: u16,
    pub rotation_angle: u32,
    pub weight: u16,
    pub italic: bool,
    pub underline: bool,
    pub strikethrough: bool,
    pub rtf_charset_number: u32,
    pub x: u8,
    pub font_name: Vec<u8>,
    pub text_color: u32,
}

#[derive(Clone, Debug, PartialEq, Eq)]
pub struct V2Styles {
    pub title: Separator,
    pub inner_frame: Frame,
    pub outer_frame: Frame,
    pub data_left: Separator,
    pub data_top: Separator,
    pub continuation: Continuation,
    /// In points, as the other three.
    pub min_col_width: u32,
    pub max_col_width: u32,
    pub min_row_height: u32,
    pub max_row_height: u32,
}

/// What stands at the top or bottom of a table that is broken across pages. The default, which a
/// version 00 file has no letters for, equals the same letters stored in a file.
///
/// ```
/// use digarumbi::Continuation;
/// assert_eq!(Continuation::Default.bytes(), b"(Cont.)");
/// assert_eq!(Continuation::Default, Continuation::Stored(b"(Cont.)".to_vec()));
/// assert_ne!(Continuation::Default, Continuation::Stored(Vec::new()));
/// ```
#[derive(Clone, Debug)]
pub enum Continuation {
    Default,
    Stored(Vec<u8>),
}

impl Continuation {
    /// The letters, of the default too.
    pub fn bytes(&self) -> &[u8] {
        match self {
            Continuation::Default => LOOK_DEFAULT_CONTINUATION_LETTERS,
            Continuation::Stored(bytes) => bytes,
        }
    }
}

/// By the letters.
impl PartialEq for Continuation {
    fn eq(&self, other: &Continuation) -> bool {
        self.bytes() == other.bytes()
    }
}

impl Eq for Continuation {}

#[derive(Clone, Debug, PartialEq, Eq)]
pub struct Frame {
    pub left: Separator,
    pub right: Separator,
    pub top: Separator,
    pub bottom: Separator,
}

impl Look {
    /// Reads a look, from a file of either version.
    ///
    /// ```
    /// let file = std::fs::read("../../examples/look_02.tlo")?;
    /// let look = digarumbi::Look::read(&file)?;
    /// assert_eq!(look.version, 2);
    /// # Ok::<(), Box<dyn std::error::Error>>(())
    /// ```
    pub fn read(file: &[u8]) -> Result<Look, Refusal> {
        let mut answer = [0; LOOK_ANSWER];
        lent::read_look(file, &mut answer);
        let [number, place, look @ ..] = &answer;
        match number {
            0 => Ok(Words::new(look, file).look()),
            _ => Err(Refusal::new(*number, *place)),
        }
    }

    /// The version of a look's file, 0 or 2. It is refused where [`Look::read`] refuses the file.
    ///
    /// ```
    /// let file = std::fs::read("../../examples/look_00.tlo")?;
    /// let versions = (digarumbi::Look::file_version(&file)?, digarumbi::Look::read(&file)?.version);
    /// assert_eq!(versions, (0, 2));
    /// # Ok::<(), Box<dyn std::error::Error>>(())
    /// ```
    pub fn file_version(file: &[u8]) -> Result<u8, Refusal> {
        Look::read(file)?;
        Ok(file[LOOK_VERSION_PLACE])
    }
}

/// Reads a look and writes it, always as a version 02 file. An accepted version 02 file is written
/// back byte for byte; a version 00 file as the version 02 file of its look, 78 bytes longer.
///
/// ```
/// let file = std::fs::read("../../examples/look_02.tlo")?;
/// assert_eq!(digarumbi::rewrite_look(&file)?, file);
/// let old = std::fs::read("../../examples/look_00.tlo")?;
/// let new = digarumbi::rewrite_look(&old)?;
/// assert_eq!(digarumbi::Look::read(&new)?, digarumbi::Look::read(&old)?);
/// # Ok::<(), Box<dyn std::error::Error>>(())
/// ```
pub fn rewrite_look(file: &[u8]) -> Result<Vec<u8>, Refusal> {
    let mut out = vec![0; LONGEST_LOOK];
    let mut answer = [0; REWRITE_ANSWER];
    lent::rewrite_look(file, &mut out, &mut answer);
    written(out, answer)
}

/// Makes the Areas and Borders sections of a version 3 member from a look, whose file is of either
/// version. They can stand in the place of a member's own.
///
/// ```
/// let file = std::fs::read("../../examples/look_02.tlo")?;
/// let sections = digarumbi::look_sections(&file)?;
/// assert_eq!(sections.len(), 804);
/// // area 1, the title: a font with no name and a height of 12 pixels, bold and italic
/// assert_eq!(sections[..6], *b"\x01\x31\0\0\0\0");
/// assert_eq!(sections[6..14], [12_f32.to_le_bytes(), 3_u32.to_le_bytes()].concat());
/// # Ok::<(), Box<dyn std::error::Error>>(())
/// ```
pub fn look_sections(file: &[u8]) -> Result<Vec<u8>, Refusal> {
    let mut out = vec![0; LONGEST_SECTIONS];
    let mut answer = [0; SECTIONS_ANSWER];
    lent::look_sections(file, &mut out, &mut answer);
    written(out, answer)
}

/// What an answer of refusal, place and length says was written.
fn written(mut out: Vec<u8>, answer: [u32; 3]) -> Result<Vec<u8>, Refusal> {
    let [number, place, length] = answer;
    if number != 0 {
        return Err(Refusal::new(number, place));
    }
    out.truncate(length as usize);
    Ok(out)
}
