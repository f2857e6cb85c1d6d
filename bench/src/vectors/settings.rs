//! Areas, Borders, PrintSettings, TableSettings and Formats.

use super::Cases;
use crate::encode::*;
use crate::parts::*;
use Section::*;

pub fn add(cases: &mut Cases) {
    area_cases(cases);
    border_cases(cases);
    print_settings_cases(cases);
    table_settings_cases(cases);
    formats_cases(cases);
    x2_cases(cases);
}

fn accept(cases: &mut Cases, name: &str, section: Section, content: Vec<u8>) {
    cases.accept(name, &Parts::shortest_with(section, content), [0, 0, 0]);
}

fn refuse(
    cases: &mut Cases,
    name: &str,
    number: u32,
    (section, content): (Section, Vec<u8>),
    offset: usize,
) {
    cases.refuse(name, number, &Parts::shortest_with(section, content), section, offset);
}

/// The content with one byte changed.
fn changed(mut content: Vec<u8>, offset: usize, byte: u8) -> Vec<u8> {
    content[offset] = byte;
    content
}

fn area_cases(cases: &mut Cases) {
    let zeros = |number: usize| [vec![0; number], areas()].concat();
    accept(cases, "areas_leading_00", Areas, zeros(1));
    refuse(cases, "areas_two_leading_00", 3, (Areas, zeros(2)), 1);
    refuse(cases, "areas_first_index_2", 3, (Areas, changed(areas(), 0, 2)), 0);
    refuse(cases, "areas_index_repeated", 3, (Areas, changed(areas(), 5 * 56, 5)), 5 * 56);
    refuse(cases, "areas_mark_58", 3, (Areas, changed(areas(), 7 * 56 + 1, 0x58)), 7 * 56 + 1);
    refuse(cases, "areas_underline", 5, (Areas, changed(areas(), 56 + 14, 2)), 56 + 14);
    refuse(cases, "areas_alternate", 5, (Areas, changed(areas(), 31, 0xff)), 31);
    accept(cases, "areas_text", Areas, [text_area(), areas()[56..].to_vec()].concat());
}

/// The first area with typeface and colors.
fn text_area() -> Vec<u8> {
    let mut bytes = vec![1, 0x31];
    bytes.extend(string(b"SansSerif"));
    bytes.extend(12f32.to_le_bytes());
    bytes.extend([int32(3), vec![1], int32s(&[2, 1])].concat());
    bytes.extend([string(b"#000000"), string(b"#ffffff"), vec![1]].concat());
    bytes.extend([string(b"#000001"), string(b"#fffffe"), int32s(&[8, 11, 1, 1])].concat());
    bytes
}

fn border_cases(cases: &mut Cases) {
    let nineteen: Vec<[u32; 3]> = (0..19).map(|kind| [kind, kind % 6, 0xff00_0000]).collect();
    accept(cases, "borders_19", Borders, count(&borders_content(&nineteen)));
    refuse(cases, "borders_endian", 3, (Borders, changed(borders(), 4, 1)), 4);
    refuse(cases, "borders_show_grid_lines", 5, (Borders, changed(borders(), 12, 2)), 12);
    refuse(cases, "borders_third_zero", 3, (Borders, changed(borders(), 15, 1)), 15);
    let left = count(&[borders_content(&[]), vec![0]].concat());
    refuse(cases, "borders_region_left", 6, (Borders, left), 16);
    refuse(cases, "borders_region_short", 2, (Borders, changed(borders(), 0, 11)), 15);
    refuse(cases, "borders_region_empty", 2, (Borders, count(&[])), 4);
    refuse(cases, "borders_region_does_not_fit", 2, (Borders, changed(borders(), 2, 1)), 0);
    let many = count(&be32s(&[1, u32::MAX, 0, 0]));
    refuse(cases, "borders_four_billion", 2, (Borders, many), 20);
}

fn print_settings_cases(cases: &mut Cases) {
    let content = || print_settings_content(b"(Cont.)");
    accept(cases, "print_settings_continuation", PrintSettings, count(&content()));
    let endian = changed(print_settings(), 7, 0);
    refuse(cases, "print_settings_endian", 3, (PrintSettings, endian), 4);
    let last_bool = changed(print_settings(), 13, 2);
    refuse(cases, "print_settings_last_bool", 5, (PrintSettings, last_bool), 13);
    let short = count(&content()[..20]);
    refuse(cases, "print_settings_string_does_not_fit", 2, (PrintSettings, short), 18);
    let left = count(&[content(), vec![0, 0]].concat());
    refuse(cases, "print_settings_region_left", 6, (PrintSettings, left), 29);
}

/// TableSettings with this content of its inner region and these bytes after the notes.
fn table_settings_with(inner: &[u8], rest: &[u8]) -> Vec<u8> {
    count(&[&table_settings_start(), &becount(inner), &bestring(b"notes")[..], rest].concat())
}

fn table_settings_cases(cases: &mut Cases) {
    // The inner count stands at 21, its region starts at 25.
    let inner = [
        be32s(&[2, 1, 5]),
        be32s(&[1, 3]),
        be32s(&[1, 1, 10]),
        be32s(&[2, 0, 1, 2, 3]),
        be32s(&[1, 4, 5, 6]),
        be32s(&[2, 1, 2, 3, 4, 5, 6]),
    ];
    let look = |tail: &[u8]| [&bestring(b"Default"), tail].concat();
    let none = no_breaks_and_keeps;
    let full = table_settings_with(&inner.concat(), &look(&[0; 82]));
    accept(cases, "table_settings_breaks_keeps_82_zeros", TableSettings, full);
    let tail = table_settings_with(&none(), &look(&[1, 0xff, 0x31, 0x58, 0]));
    accept(cases, "table_settings_free_tail", TableSettings, tail);
    let endian = changed(table_settings(), 4, 0xff);
    refuse(cases, "table_settings_endian", 3, (TableSettings, endian), 4);
    let fourth_bool = changed(table_settings(), 19, 2);
    refuse(cases, "table_settings_fourth_bool", 5, (TableSettings, fourth_bool), 19);
    let left = table_settings_with(&[none(), vec![0; 4]].concat(), &look(&[]));
    refuse(cases, "table_settings_inner_left", 6, (TableSettings, left), 25 + 24);
    let short = table_settings_with(&none()[..22], &look(&[]));
    refuse(cases, "table_settings_inner_short", 2, (TableSettings, short), 25 + 20);
    let keeps = table_settings_with(&be32s(&[0, 0, u32::MAX, 0, 0, 0]), &look(&[]));
    refuse(cases, "table_settings_keeps_four_billion", 2, (TableSettings, keeps), 25 + 24);
    // The inner region fits in the member but not in the outer region.
    let long = changed(table_settings(), 24, 33);
    refuse(cases, "table_settings_inner_does_not_fit", 2, (TableSettings, long), 21);
    let no_look = table_settings_with(&none(), &[0, 0, 0]);
    refuse(cases, "table_settings_look_absent", 2, (TableSettings, no_look), 25 + 24 + 9);
}

/// Places in the shortest Formats. The outer count stands at 25.
const X1: usize = 33;
const X2: usize = X1 + 33 + 4;
const X2_END: usize = X2 + 16;

fn formats_cases(cases: &mut Cases) {
    let widths = [int32s(&[3, 10, 20, 30]), string(b"en_US.UTF-8"), int32(0), vec![0; 3]];
    let currencies = vec![string(b"-,,,"); 5];
    let years = [int32(u32::MAX), b".,".to_vec(), list(&currencies)];
    let region = count(&formats_region(&x2(&[]), &[0xff; 9]));
    let full = [widths.concat(), years.concat(), region].concat();
    accept(cases, "formats_widths_currencies_free_x3", Formats, full);
    let outer_left = count(&[formats_region(&x2(&[]), &[]), vec![0]].concat());
    let left = [formats_start(), outer_left].concat();
    refuse(cases, "formats_outer_left", 6, (Formats, left), X2_END + 4);
    refuse(cases, "formats_x9", 5, (Formats, changed(formats(), 14, 2)), 14);
    for (name, offset) in [("x14", 0), ("x16", 2), ("x20", 31), ("show_caption", 32)] {
        let place = X1 + offset;
        let name = format!("formats_x1_{name}");
        refuse(cases, &name, 5, (Formats, changed(formats(), place, 2)), place);
    }
    refuse(cases, "formats_x1_last_zero", 3, (Formats, changed(formats(), X1 + 30, 1)), X1 + 30);
    refuse(cases, "formats_x3_does_not_fit", 2, (Formats, changed(formats(), X2_END, 1)), X2_END);
    let left = [x1(), count(&x2(&[])), vec![0]].concat();
    let left = [formats_start(), count(&[count(&left), count(&[])].concat())].concat();
    refuse(cases, "formats_x1_x2_region_left", 6, (Formats, left), X2_END);
    let no_x3 = [formats_start(), count(&count(&[x1(), count(&x2(&[]))].concat()))].concat();
    refuse(cases, "formats_x3_absent", 2, (Formats, no_x3), X2_END);
    let mut widths = formats();
    widths.splice(0..4, int32(u32::MAX));
    let widths = Parts::shortest_with(Formats, widths);
    cases.refuse_cut("formats_widths_four_billion", 2, &widths, (Formats, 8), 2);
}

fn x2_cases(cases: &mut Cases) {
    let style_map = list(&[[int64(7), int16(0)].concat(), [int64(u64::MAX), int16(1)].concat()]);
    let font = [vec![0x31, 1, 1, 0, 1], string(b"").repeat(3), vec![12], vec![0x58]].concat();
    let cell = [vec![0x58, 0x31], vec![0; 24]].concat();
    let styles = list(&[vec![0x58, 0x58], font, cell]);
    let full = [int32s(&[2, 15, 30]), style_map, styles, count(&[0; 8])].concat();
    accept(cases, "x2_heights_styles_ending", Formats, formats_with(&full, &[]));
    let ending = |bytes: &[u8]| formats_with(&x2(bytes), &[]);
    // The ending's region starts where X2 ends if it is empty.
    refuse(cases, "x2_ending_one_byte", 2, (Formats, ending(&[0])), X2_END);
    refuse(cases, "x2_ending_four_bytes", 2, (Formats, ending(&[0; 4])), X2_END + 4);
    let first = ending(&[1, 0, 0, 0, 0, 0, 0, 0]);
    refuse(cases, "x2_ending_first_number", 3, (Formats, first), X2_END);
    let second = ending(&[0, 0, 0, 0, 1, 0, 0, 0]);
    refuse(cases, "x2_ending_second_number", 3, (Formats, second), X2_END + 4);
    refuse(cases, "x2_ending_left", 6, (Formats, ending(&[0; 9])), X2_END + 8);
    let left = formats_with(&[x2(&[]), vec![0; 2]].concat(), &[]);
    refuse(cases, "x2_region_left", 6, (Formats, left), X2_END);
    let mark = [list(&[]), list(&[]), list(&[vec![0x30, 0x58]]), count(&[])].concat();
    refuse(cases, "x2_style_mark", 3, (Formats, formats_with(&mark, &[])), X2 + 12);
}
