//! The looks that the repository stores, each with the line that the program over looks prints.
//! Places and lines are worked out from the papers, not taken from the reader.

use crate::look::{
    write_look, AreaColor, AreaStyle, Continuation, Look, Name, Separator, V2Styles, LOOK_VERSION,
};

pub struct StoredLook {
    /// File name.
    pub name: String,
    pub bytes: Vec<u8>,
    /// What is printed after the name.
    pub line: String,
}

/// Where the lengths of the four class names stand if no separator is drawn.
const LENGTHS: [(&str, usize); 4] =
    [("pttablelook", 4), ("pvseparatorstyle", 38), ("pvcellstyle", 80), ("pvtextstyle", 110)];

/// Where the version stands.
const VERSION_PLACE: usize = 17;
/// What 002 says of V2Styles that are absent, as bytes: the title's separator, the inner frame, the
/// outer frame and the data area's separators, the continuation, the widths and heights.
const DEFAULTS: &[u8] = b"\0\0\
    \x01\0\0\0\0\0\0\0\x01\0\x01\0\0\0\0\0\0\0\x01\0\
    \x01\0\0\0\0\0\0\0\x01\0\x01\0\0\0\0\0\0\0\x01\0\
    \0\0\0\0\0\0\0\0\0\0\0\0\
    \x07(Cont.)\
    \x24\0\0\0\x48\0\0\0\x24\0\0\0\x78\0\0\0";

/// The names' bytes of the longest looks.
const NAME: [u8; 255] = [b'A'; 255];

fn color() -> AreaColor {
    AreaColor { color10: 0x0001_0203, color0: 0x00ff_eedd, shading: 10 }
}

fn style(font_name: Name) -> AreaStyle {
    AreaStyle {
        valign: 1,
        halign: 2,
        decimal_offset: 3,
        left_margin: 4,
        right_margin: 5,
        top_margin: 6,
        bottom_margin: 7,
        font_size: -12,
        stretch: 1,
        rotation_angle: 9,
        weight: 700,
        italic: true,
        underline: false,
        strikethrough: true,
        rtf_charset_number: 204,
        x: 12,
        font_name,
        text_color: 0x0011_2233,
    }
}

/// The version 02 file of a look in which all separators and all names are these.
fn file(separator: Separator, name: Name) -> Vec<u8> {
    let v2 = V2Styles {
        separators: [separator; 11],
        continuation: Continuation::Stored(name),
        min_col_width: 36,
        max_col_width: 72,
        min_row_height: 36,
        max_row_height: 120,
    };
    let look = Look {
        version: LOOK_VERSION,
        flags: 0x01fe,
        nested_row_labels: true,
        footnote_marker_subscripts: false,
        separators1: [separator; 4],
        separators2: [separator; 4],
        title_color: color(),
        title_style: style(name),
        most_areas: [(color(), style(name)); 7],
        v2,
    };
    let mut out = vec![0; 4_000];
    let length = write_look(&look, &NAME, &mut out).expect("a look that can be written");
    out.truncate(length);
    out
}

fn shortest() -> Vec<u8> {
    file(Separator::NotDrawn, Name::default())
}

fn longest() -> Vec<u8> {
    let drawn = Separator::Drawn { color: 0x00ff_fefd, style: 1, width: 2 };
    file(drawn, Name { place: 0, length: 255 })
}

/// The version 00 file that ends where the V2Styles of this one begin. Nothing writes such files any
/// more.
fn old(file: Vec<u8>, v2_place: usize) -> Vec<u8> {
    cut(changed(file, VERSION_PLACE, 0), v2_place)
}

/// The version 02 file as which a version 00 file is rewritten.
pub fn with_defaults(file: Vec<u8>) -> Vec<u8> {
    [changed(file, VERSION_PLACE, 2), DEFAULTS.to_vec()].concat()
}

fn changed(mut bytes: Vec<u8>, place: usize, byte: u8) -> Vec<u8> {
    assert_ne!(bytes[place], byte);
    bytes[place] = byte;
    bytes
}

fn cut(mut bytes: Vec<u8>, length: usize) -> Vec<u8> {
    assert!(length < bytes.len());
    bytes.truncate(length);
    bytes
}

/// The shortest version 02 look as it was written before class names had lengths.
fn without_lengths() -> Vec<u8> {
    let mut bytes = shortest();
    for (_, place) in LENGTHS.into_iter().rev() {
        bytes.drain(place..place + 2);
    }
    bytes
}

#[derive(Default)]
struct Looks(Vec<StoredLook>);

impl Looks {
    fn add(&mut self, name: &str, bytes: Vec<u8>, line: String) {
        self.0.push(StoredLook { name: format!("{name}.tlo"), bytes, line });
    }

    /// An accepted look: its length, how it is rewritten, where the title's font name and its first
    /// color stand, and the length of its file with the default continuation.
    fn accept(
        &mut self,
        name: &str,
        bytes: Vec<u8>,
        (length, rewritten): (usize, &str),
        (font_name, color): (usize, usize),
        with_default: usize,
    ) {
        let line = [
            format!("accepted, {length} bytes, rewritten {rewritten}"),
            "too short an output: refused 15 at 0".to_string(),
            format!("no names: refused 2 at {font_name}"),
            format!("the default continuation: {with_default}"),
            "version 00: refused 4 at 17".to_string(),
            "version 01: refused 4 at 17".to_string(),
            format!("a name of 256 bytes: refused 7 at {font_name}"),
            format!("a color of 01000000: refused 14 at {color}"),
        ];
        self.add(name, bytes, line.join("; "));
    }

    fn refuse(&mut self, name: &str, bytes: Vec<u8>, number: u32, place: usize) {
        self.add(name, bytes, format!("refused {number} at {place}"));
    }
}

/// All stored looks, in the order in which the program over looks gets them.
pub fn stored_looks() -> Vec<StoredLook> {
    let mut looks = Looks::default();
    let shortest_00 = (674, "as version 02, 752 bytes, and that the same");
    let longest_00 = (2_778, "as version 02, 2856 bytes, and that the same");
    let defaults_02 = with_defaults(old(shortest(), 674));
    looks.accept("shortest_00", old(shortest(), 674), shortest_00, (170, 96), 752);
    looks.accept("shortest_02", shortest(), (713, "the same"), (170, 96), 720);
    looks.accept("longest_00", old(longest(), 2_778), longest_00, (234, 160), 2_856);
    looks.accept("longest_02", longest(), (3_160, "the same"), (234, 160), 2_912);
    looks.accept("defaults_02", defaults_02, (752, "the same"), (170, 96), 752);
    looks.refuse("cut_short", cut(shortest(), 308), 2, 307);
    looks.refuse("name_cut_short", cut(shortest(), 16), 2, 6);
    looks.refuse("other_letters", changed(shortest(), 8, b'X'), 3, 6);
    looks.refuse("fixed_byte_differs", changed(shortest(), 20, 1), 3, 20);
    looks.refuse("separator_type_2", changed(longest(), 57, 2), 3, 57);
    looks.refuse("version_01", changed(shortest(), VERSION_PLACE, 1), 4, VERSION_PLACE);
    looks.refuse("bool_of_2", changed(shortest(), 22, 2), 5, 22);
    looks.refuse("shading_11", changed(shortest(), 104, 11), 7, 104);
    looks.refuse("bytes_left", [shortest(), vec![0]].concat(), 11, 713);
    looks.refuse("bytes_left_00", changed(shortest(), VERSION_PLACE, 0), 11, 674);
    looks.refuse("color_high_byte", changed(shortest(), 99, 1), 14, 96);
    looks.refuse("empty", Vec::new(), 2, 0);
    class_names(&mut looks);
    looks.0
}

/// Looks that show the lengths of class names.
fn class_names(looks: &mut Looks) {
    for ((name, place), length) in LENGTHS.into_iter().zip([12, 15, 10, 12]) {
        let bytes = changed(shortest(), place, length);
        looks.refuse(&format!("length_of_{name}"), bytes, 3, place);
    }
    looks.refuse("length_high_byte", changed(shortest(), 81, 1), 3, 80);
    looks.refuse("wrong_length_at_the_end", cut(changed(shortest(), 4, 10), 6), 3, 4);
    looks.refuse("cut_in_a_length", cut(shortest(), 81), 2, 80);
    looks.refuse("cut_after_a_length", cut(shortest(), 40), 2, 40);
    looks.refuse("without_lengths", without_lengths(), 3, 4);
}
