//! Binary table looks. Files of version 00 and 02 are read, and those of version 02 written; a look
//! is always of version 02. Areas and Borders of a member are made from them.

mod read;
mod sections;
mod write;

pub use read::{file_version, read_look, read_with_places};
pub use sections::look_sections;
pub use write::write_look;

/// The version of every look that is read, and the one that is written.
pub const LOOK_VERSION: u8 = 2;

/// A name, by place and length in the bytes that hold it.
#[derive(Clone, Copy, Debug, Default, PartialEq, Eq)]
pub struct Name {
    pub place: u32,
    pub length: u32,
}

impl Name {
    /// The name's bytes, if it lies inside these.
    pub fn bytes<'a>(&self, names: &'a [u8]) -> Option<&'a [u8]> {
        let start = self.place as usize;
        names.get(start..start.checked_add(self.length as usize)?)
    }
}

#[derive(Clone, Copy, Debug, Default, PartialEq, Eq)]
pub enum Separator {
    #[default]
    NotDrawn,
    Drawn {
        color: u32,
        style: u16,
        width: u16,
    },
}

#[derive(Clone, Copy, Debug, Default, PartialEq, Eq)]
pub struct AreaColor {
    pub color10: u32,
    pub color0: u32,
    pub shading: u8,
}

#[derive(Clone, Copy, Debug, Default, PartialEq, Eq)]
pub struct AreaStyle {
    pub valign: u16,
    pub halign: u16,
    pub decimal_offset: u16,
    pub left_margin: u16,
    pub right_margin: u16,
    pub top_margin: u16,
    pub bottom_margin: u16,
    pub font_size: i32,
    pub stretch: u16,
    pub rotation_angle: u32,
    pub weight: u16,
    pub italic: bool,
    pub underline: bool,
    pub strikethrough: bool,
    pub rtf_charset_number: u32,
    pub x: u8,
    pub font_name: Name,
    pub text_color: u32,
}

/// What stands where a table is broken across pages: the letters that a file stores, or the default
/// of a file that stores none.
#[derive(Clone, Copy, Debug, PartialEq, Eq)]
pub enum Continuation {
    Default,
    Stored(Name),
}

impl Continuation {
    /// Its bytes; none if it is stored and doesn't lie inside these.
    pub fn bytes<'a>(&self, names: &'a [u8]) -> Option<&'a [u8]> {
        match self {
            Continuation::Default => Some(b"(Cont.)"),
            Continuation::Stored(name) => name.bytes(names),
        }
    }
}

/// The parts that only files of version 02 have.
#[derive(Clone, Copy, Debug, PartialEq, Eq)]
pub struct V2Styles {
    pub separators: [Separator; 11],
    pub continuation: Continuation,
    pub min_col_width: u32,
    pub max_col_width: u32,
    pub min_row_height: u32,
    pub max_row_height: u32,
}

/// What 002 says of a file without them: a solid inner frame, which is the separators 1 to 4.
impl Default for V2Styles {
    fn default() -> V2Styles {
        let mut separators = [Separator::NotDrawn; 11];
        separators[1..=4].fill(Separator::Drawn { color: 0, style: 0, width: 1 });
        V2Styles {
            separators,
            continuation: Continuation::Default,
            min_col_width: 36,
            max_col_width: 72,
            min_row_height: 36,
            max_row_height: 120,
        }
    }
}

#[derive(Clone, Copy, Debug, Default, PartialEq, Eq)]
pub struct Look {
    /// [`LOOK_VERSION`] in a look that was read.
    pub version: u8,
    pub flags: u16,
    pub nested_row_labels: bool,
    pub footnote_marker_subscripts: bool,
    /// Rows.
    pub separators1: [Separator; 4],
    /// Columns.
    pub separators2: [Separator; 4],
    pub title_color: AreaColor,
    pub title_style: AreaStyle,
    pub most_areas: [(AreaColor, AreaStyle); 7],
    pub v2: V2Styles,
}

/// Where those fields of a look stand in its file that can be refused when sections are made from it.
#[derive(Clone, Copy, Debug, Default, PartialEq, Eq)]
pub struct Places {
    pub separators1: [usize; 4],
    pub separators2: [usize; 4],
    pub title_style: StylePlaces,
    pub most_areas: [StylePlaces; 7],
    /// All 0 if the file is of version 00 and has none.
    pub v2_separators: [usize; 11],
}

/// Likewise, of an AreaStyle.
#[derive(Clone, Copy, Debug, Default, PartialEq, Eq)]
pub struct StylePlaces {
    pub valign: usize,
    pub halign: usize,
    pub font_size: usize,
    /// The length byte.
    pub font_name: usize,
}

impl Look {
    /// The look without its names, and the bytes of the names.
    fn without_names<'a>(&self, names: &'a [u8]) -> (Look, Vec<Option<&'a [u8]>>) {
        let mut look = *self;
        let styles = look.most_areas.iter_mut().map(|(_, style)| style);
        let styles = styles.chain([&mut look.title_style]);
        let mut bytes: Vec<_> =
            styles.map(|style| std::mem::take(&mut style.font_name).bytes(names)).collect();
        bytes.push(look.v2.continuation.bytes(names));
        look.v2.continuation = Continuation::Default;
        (look, bytes)
    }

    /// Whether two looks are the same. Names are compared by their bytes, not their places, so the
    /// default continuation equals the same letters stored.
    pub fn same(&self, names: &[u8], other: &Look, other_names: &[u8]) -> bool {
        self.without_names(names) == other.without_names(other_names)
    }
}
