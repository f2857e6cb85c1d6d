//! A member as its sections, each a run of bytes, and the shortest content of each section.

use crate::encode::*;

#[derive(Clone, Copy, Debug, PartialEq, Eq)]
pub enum Section {
    Header,
    Titles,
    Footnotes,
    Areas,
    Borders,
    PrintSettings,
    TableSettings,
    Formats,
    Dimensions,
    Axes,
    Cells,
    Ending,
}

/// The bytes of each section, in file order.
#[derive(Clone)]
pub struct Parts([Vec<u8>; 12]);

impl Parts {
    /// The shortest accepted member of version 3.
    pub fn shortest() -> Parts {
        Parts([
            header(),
            titles(),
            list(&[]),
            areas(),
            borders(),
            print_settings(),
            table_settings(),
            formats(),
            list(&[]),
            axes([0, 0, 0], &[]),
            list(&[]),
            Vec::new(),
        ])
    }

    /// The shortest accepted member of version 1.
    pub fn shortest_version_1() -> Parts {
        Parts::shortest().in_version_1()
    }

    /// The same member in version 1: areas without margins, and the regions of TableSettings and
    /// Formats empty.
    pub fn in_version_1(self) -> Parts {
        self.with(Section::Header, header_version_1())
            .with(Section::Areas, areas_version_1())
            .with(Section::TableSettings, count(&[]))
            .with(Section::Formats, formats_version_1(&[]))
    }

    /// The shortest member with another content of one section.
    pub fn shortest_with(section: Section, content: Vec<u8>) -> Parts {
        Parts::shortest().with(section, content)
    }

    pub fn with(mut self, section: Section, content: Vec<u8>) -> Parts {
        self.0[section as usize] = content;
        self
    }

    /// Changes one byte of a section.
    pub fn with_byte(mut self, section: Section, offset: usize, byte: u8) -> Parts {
        self.0[section as usize][offset] = byte;
        self
    }

    pub fn bytes(&self) -> Vec<u8> {
        self.0.concat()
    }

    /// The place where a section starts.
    pub fn start(&self, section: Section) -> usize {
        self.0[..section as usize].iter().map(Vec::len).sum()
    }
}

/// 39 bytes: 01 00, version 3, five bools, five numbers, the table's identifier.
pub fn header() -> Vec<u8> {
    let mut bytes = vec![1, 0, 3, 0, 0, 0, 1, 0, 0, 0, 1];
    bytes.extend(int32s(&[0x15, 36, 72, 36, 120]));
    bytes.extend(int64(0xc6c9_9d18_3b30_0001));
    bytes
}

/// The same with version 1.
pub fn header_version_1() -> Vec<u8> {
    let mut bytes = header();
    bytes[2] = 1;
    bytes
}

/// The shortest Value: a template without text and arguments, 9 bytes.
pub fn template() -> Vec<u8> {
    [vec![0x58], string(b""), list(&[])].concat()
}

/// 30 bytes: the marks stand at 18, 28 and 29.
pub fn titles() -> Vec<u8> {
    [template(), template(), vec![0x31], template(), vec![0x58, 0x58]].concat()
}

/// An area without text, 56 bytes.
pub fn area(index: u8) -> Vec<u8> {
    let mut bytes = vec![index, 0x31];
    bytes.extend(string(b""));
    bytes.extend(12f32.to_le_bytes());
    bytes.extend(int32(0));
    bytes.push(0);
    bytes.extend(int32s(&[64_173, 0]));
    bytes.extend([string(b""), string(b"")].concat());
    bytes.push(0);
    bytes.extend([string(b""), string(b"")].concat());
    bytes.extend(int32s(&[8, 11, 1, 1]));
    bytes
}

pub fn areas() -> Vec<u8> {
    (1..=8).flat_map(area).collect()
}

/// An area of version 1, without text and margins, 40 bytes.
pub fn area_version_1(index: u8) -> Vec<u8> {
    area(index)[..40].to_vec()
}

pub fn areas_version_1() -> Vec<u8> {
    (1..=8).flat_map(area_version_1).collect()
}

/// The content of Borders.
pub fn borders_content(entries: &[[u32; 3]]) -> Vec<u8> {
    let entries: Vec<Vec<u8>> = entries.iter().map(|entry| be32s(entry)).collect();
    [be32(1), be_list(&entries), vec![1, 0, 0, 0]].concat()
}

pub fn borders() -> Vec<u8> {
    count(&borders_content(&[]))
}

/// The content of PrintSettings.
pub fn print_settings_content(continuation: &[u8]) -> Vec<u8> {
    [be32(1), vec![0, 1, 0, 1, 0, 1], be32(2), bestring(continuation)].concat()
}

pub fn print_settings() -> Vec<u8> {
    count(&print_settings_content(b""))
}

/// The content of TableSettings up to the count of breaks and keeps, 17 bytes.
pub fn table_settings_start() -> Vec<u8> {
    [be32s(&[1, 4, 0]), vec![0, 1, 0, 1, 0]].concat()
}

/// Six empty lists of breaks and keeps, 24 bytes.
pub fn no_breaks_and_keeps() -> Vec<u8> {
    be32s(&[0; 6])
}

pub fn table_settings() -> Vec<u8> {
    let content =
        [table_settings_start(), becount(&no_breaks_and_keeps()), bestring(b""), bestring(b"")];
    count(&content.concat())
}

/// Formats before its outer region, 25 bytes without widths, locale and currencies.
pub fn formats_start() -> Vec<u8> {
    let mut bytes = list(&[]);
    bytes.extend(string(b""));
    bytes.extend(int32(0));
    bytes.extend([0, 1, 0]);
    bytes.extend(int32(1948));
    bytes.extend(b".,");
    bytes.extend(list(&[]));
    bytes
}

/// Formats of version 1 with this content of its outer region, which starts at 29.
pub fn formats_version_1(region: &[u8]) -> Vec<u8> {
    [formats_start(), count(region)].concat()
}

/// 50 bytes without text and currencies: after 14 bytes five strings from 14 on, four bools from 34
/// on, six bytes, the currencies from 44 on, `missing` at 48 and the last bool at 49.
pub fn x0() -> Vec<u8> {
    let mut bytes: Vec<u8> = (0..14).collect();
    bytes.extend(string(b"").repeat(5));
    bytes.extend([0, 1, 1, 1]);
    bytes.extend(int32(1948));
    bytes.extend(b".,");
    bytes.extend(list(&[]));
    bytes.extend([b'.', 0]);
    bytes
}

/// 33 bytes; the 17 fixed zeros stand at 14.
pub fn x1() -> Vec<u8> {
    let mut bytes = vec![0, 1, 0, 0, 0, 0];
    bytes.extend(int32s(&[u32::MAX, u32::MAX]));
    bytes.extend([0; 17]);
    bytes.extend([0, 1]);
    bytes
}

/// Three empty lists and a counted ending.
pub fn x2(ending: &[u8]) -> Vec<u8> {
    [list(&[]), list(&[]), list(&[]), count(ending)].concat()
}

/// The content of the outer region of Formats.
pub fn formats_region(x2: &[u8], x3: &[u8]) -> Vec<u8> {
    [count(&[x1(), count(x2)].concat()), count(x3)].concat()
}

/// Formats with these contents of X2 and X3.
pub fn formats_with(x2: &[u8], x3: &[u8]) -> Vec<u8> {
    [formats_start(), count(&formats_region(x2, x3))].concat()
}

pub fn formats() -> Vec<u8> {
    formats_with(&x2(&[]), &[])
}

/// Category marks, the bytes after a category's name.
pub const LEAF: [u8; 3] = [0, 0, 0];
pub const GROUP: [u8; 3] = [0, 0, 1];
pub const MERGED_GROUP: [u8; 3] = [1, 0, 1];

/// A leaf with the shortest name, 24 bytes; its index stands at 16.
pub fn leaf(index: u32) -> Vec<u8> {
    named_leaf(&template(), index)
}

pub fn named_leaf(name: &[u8], index: u32) -> Vec<u8> {
    [name, &LEAF, &int32s(&[2, index, 0])].concat()
}

/// A group with the shortest name; its categories start at 24.
pub fn group(categories: &[Vec<u8>]) -> Vec<u8> {
    named_group(&template(), GROUP, categories)
}

pub fn named_group(name: &[u8], mark: [u8; 3], categories: &[Vec<u8>]) -> Vec<u8> {
    [name, &mark, &int32s(&[0, u32::MAX]), &list(categories)].concat()
}

/// A dimension with the shortest name; its categories start at 26.
pub fn dimension(categories: &[Vec<u8>]) -> Vec<u8> {
    named_dimension(&template(), categories)
}

pub fn named_dimension(name: &[u8], categories: &[Vec<u8>]) -> Vec<u8> {
    [name, &dimension_properties(0), &list(categories)].concat()
}

/// 13 bytes: the bools stand at 6 and 7, the fixed 01 at 8.
pub fn dimension_properties(index: u32) -> Vec<u8> {
    [vec![0, 2], int32(2), vec![1, 0, 1], int32(index)].concat()
}

/// A dimension with n leaves in the order of their indexes.
pub fn flat_dimension(n: u32) -> Vec<u8> {
    let leaves: Vec<Vec<u8>> = (0..n).map(leaf).collect();
    dimension(&leaves)
}

pub fn axes(counts: [u32; 3], entries: &[u32]) -> Vec<u8> {
    [int32s(&counts), int32s(entries)].concat()
}

/// A cell with the shortest Value, 17 bytes.
pub fn cell(index: u64) -> Vec<u8> {
    [int64(index), template()].concat()
}

/// A list of such cells.
pub fn cells(indexes: &[u64]) -> Vec<u8> {
    let entries: Vec<Vec<u8>> = indexes.iter().map(|&index| cell(index)).collect();
    list(&entries)
}

/// A member with flat dimensions, all on the row axis, and cells with these indexes.
pub fn table(leaves: &[u32], cell_indexes: &[u64]) -> Parts {
    let dimensions: Vec<Vec<u8>> = leaves.iter().map(|&n| flat_dimension(n)).collect();
    table_of(&dimensions, cell_indexes)
}

/// A member with these dimensions, all on the row axis, and cells with these indexes.
pub fn table_of(dimensions: &[Vec<u8>], cell_indexes: &[u64]) -> Parts {
    let number = dimensions.len() as u32;
    let order: Vec<u32> = (0..number).collect();
    Parts::shortest()
        .with(Section::Dimensions, list(dimensions))
        .with(Section::Axes, axes([0, number, 0], &order))
        .with(Section::Cells, cells(cell_indexes))
}
