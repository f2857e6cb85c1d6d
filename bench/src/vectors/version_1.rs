//! Members of version 1, and versions that are not read: document 02, T-03.

use super::Cases;
use crate::encode::*;
use crate::parts::*;
use Section::*;

pub fn add(cases: &mut Cases) {
    version_cases(cases);
    whole_cases(cases);
    area_cases(cases);
    table_settings_cases(cases);
    formats_cases(cases);
    x0_cut_cases(cases);
    x0_content_cases(cases);
    cell_zero_cases(cases);
    other_zero_cases(cases);
    modifier_cases(cases);
    modifier_place_cases(cases);
    depth_cases(cases);
    other_version_cases(cases);
}

/// The shortest member of version 1 with another content of one section.
fn version_1(section: Section, content: Vec<u8>) -> Parts {
    Parts::shortest_version_1().with(section, content)
}

fn accept(cases: &mut Cases, name: &str, section: Section, content: Vec<u8>) {
    cases.accept(name, &version_1(section, content), [0, 0, 0]);
}

/// Refused at `offset` in this section.
fn refuse(
    cases: &mut Cases,
    name: &str,
    number: u32,
    (section, content): (Section, Vec<u8>),
    offset: usize,
) {
    cases.refuse(name, number, &version_1(section, content), section, offset);
}

/// The content with one byte changed.
fn changed(mut content: Vec<u8>, offset: usize, byte: u8) -> Vec<u8> {
    content[offset] = byte;
    content
}

/// Titles with this title.
fn titled(title: &[u8]) -> Vec<u8> {
    [title, &titles()[9..]].concat()
}

/// A dimension with two leaves, and cells with these Values.
fn with_cells(values: &[Vec<u8>]) -> Parts {
    let cells: Vec<Vec<u8>> =
        (0..).zip(values).map(|(index, value)| [&int64(index), &value[..]].concat()).collect();
    table(&[2], &[]).in_version_1().with(Cells, list(&cells))
}

/// Where the Value of the first cell starts in Cells.
const FIRST_CELL: usize = 4 + 8;

/// The version is one field of four bytes.
fn version_cases(cases: &mut Cases) {
    for (name, number) in [
        ("version_0", [0, 0, 0, 0]),
        ("version_2", [2, 0, 0, 0]),
        ("version_4", [4, 0, 0, 0]),
        ("version_1_last_byte_1", [1, 0, 0, 1]),
        ("version_3_second_byte_1", [3, 1, 0, 0]),
        ("version_1_big_endian", [0, 0, 0, 1]),
    ] {
        let header = [&[1, 0][..], &number, &header()[6..]].concat();
        refuse(cases, name, 4, (Header, header.clone()), 2);
        let three = Parts::shortest_with(Header, header);
        cases.refuse(&format!("{name}_rest_version_3"), 4, &three, Header, 2);
    }
    cases.refuse_bytes("version_2_no_more", 4, &[1, 0, 2, 0, 0, 0], 2);
    cases.refuse_bytes("version_2_cut", 2, &[1, 0, 2, 0, 0], 2);
    cases.refuse_bytes("v1_header_bool", 5, &[1, 0, 1, 0, 0, 0, 2], 6);
    let shortest = Parts::shortest_version_1();
    cases.refuse_cut("v1_header_table_id_cut", 2, &shortest, (Header, 31), 7);
    cases.refuse_cut("v1_titles_absent", 2, &shortest, (Titles, 0), 0);
}

fn whole_cases(cases: &mut Cases) {
    accept(cases, "v1_shortest", Ending, vec![]);
    accept(cases, "v1_final_01", Ending, vec![1]);
    refuse(cases, "v1_final_01_twice", 11, (Ending, vec![1, 1]), 1);
    // Everything that version 1 has, once.
    let name = [vec![0; 4], vec![5, 0x58], string(b"v"), string(b"Vertebra"), vec![0]].concat();
    let number = [vec![0; 5], vec![1, 0x58], int32(0), 3f64.to_le_bytes().to_vec()].concat();
    let footnote = [template(), vec![0x31], template(), int32(1)].concat();
    let dimensions = [named_dimension(&name, &[leaf(1), group(&[leaf(0)])]), flat_dimension(2)];
    let values = [[int64(3), number].concat(), cell(0)];
    let full = table_of(&dimensions, &[])
        .in_version_1()
        .with(Titles, all_titles())
        .with(Footnotes, list(&[footnote]))
        .with(Areas, [vec![0], areas_version_1()].concat())
        .with(TableSettings, count(&[0; 82]))
        .with(Formats, formats_version_1(&full_x0()))
        .with(Cells, list(&values))
        .with(Ending, vec![1]);
    cases.accept("v1_all", &full, [2, 5, 2]);
    // What does not depend on the version.
    let table = table(&[3, 4, 5], &[33, 60]).in_version_1();
    cases.refuse("v1_cell_index_60", 10, &table, Cells, 4 + 17);
    let leaves = table_of(&[dimension(&[leaf(0), leaf(0)])], &[]).in_version_1();
    cases.refuse("v1_leaf_index_repeated", 8, &leaves, Dimensions, 4 + 26 + 24 + 16);
    let axes = version_1(Axes, axes([0, 1, 0], &[0]));
    cases.refuse("v1_axis_count", 9, &axes, Axes, 0);
    refuse(cases, "v1_borders_endian", 3, (Borders, changed(borders(), 4, 1)), 4);
    let left = count(&[print_settings_content(b""), vec![0]].concat());
    refuse(cases, "v1_print_settings_left", 6, (PrintSettings, left), 4 + 18);
}

/// Titles with all marks, a corner text and a caption; the 31s before these are no ValueMod.
fn all_titles() -> Vec<u8> {
    let t = template;
    [t(), vec![1], t(), vec![1, 0x31], t(), vec![1, 0x31], t(), vec![0x31], t()].concat()
}

fn area_cases(cases: &mut Cases) {
    let zeros = |number: usize| [vec![0; number], areas_version_1()].concat();
    accept(cases, "v1_areas_leading_00", Areas, zeros(1));
    refuse(cases, "v1_areas_two_leading_00", 3, (Areas, zeros(2)), 1);
    let areas = areas_version_1;
    refuse(cases, "v1_areas_index_repeated", 3, (Areas, changed(areas(), 5 * 40, 5)), 5 * 40);
    let mark = changed(areas(), 7 * 40 + 1, 0x58);
    refuse(cases, "v1_areas_mark_58", 3, (Areas, mark), 7 * 40 + 1);
    refuse(cases, "v1_areas_alternate", 5, (Areas, changed(areas(), 40 + 31, 2)), 40 + 31);
    let last = Parts::shortest_version_1();
    cases.refuse_cut("v1_areas_last_string_cut", 2, &last, (Areas, 7 * 40 + 36), 3);
    let mut zero = areas();
    zero.splice(42..46, string(b"a\0"));
    refuse(cases, "v1_areas_zero_in_typeface", 18, (Areas, zero), 42);
    // The left margin, 8, stands where the second area's index must be.
    let margins = (1..=8).flat_map(area).collect();
    refuse(cases, "v1_areas_with_margins", 3, (Areas, margins), 40);
    // The margins of the last area alone are read as Borders: a region of 8 bytes that begins with
    // 11, little-endian.
    let last = [(1..=7).flat_map(area_version_1).collect(), area(8)].concat();
    refuse(cases, "v1_areas_last_with_margins", 3, (Areas, last), 8 * 40 + 4);
}

/// All bytes of the region are free.
fn table_settings_cases(cases: &mut Cases) {
    let all: Vec<u8> = (0..=255).rev().collect();
    accept(cases, "v1_table_settings_one_00", TableSettings, count(&[0]));
    accept(cases, "v1_table_settings_one_ff", TableSettings, count(&[0xff]));
    accept(cases, "v1_table_settings_any_bytes", TableSettings, count(&all));
    accept(cases, "v1_table_settings_of_version_3", TableSettings, table_settings());
    let endian = changed(table_settings(), 4, 0xff);
    accept(cases, "v1_table_settings_no_endian", TableSettings, endian);
    // The count announces more than the member has.
    let long = changed(count(&[]), 2, 1);
    refuse(cases, "v1_table_settings_does_not_fit", 2, (TableSettings, long), 0);
    let shortest = Parts::shortest_version_1();
    cases.refuse_cut("v1_table_settings_count_cut", 2, &shortest, (TableSettings, 0), 3);
    let one = version_1(TableSettings, count(&[7, 7]));
    cases.refuse_cut("v1_table_settings_cut", 2, &one, (TableSettings, 0), 5);
}

/// Where the outer region of Formats starts.
const REGION: usize = 25 + 4;

/// X0 with texts and two currencies.
fn full_x0() -> Vec<u8> {
    let texts = [b"Descriptives", &b"Deskriptive"[..], b"de", b"", b"de_DE.windows-1252"];
    let texts = texts.map(string).concat();
    let currencies = list(&[string(b"-,,,"), string(b"")]);
    [&[0xff; 14], &texts[..], &x0()[34..44], &currencies, &[b'.', 1]].concat()
}

fn formats_cases(cases: &mut Cases) {
    accept(cases, "v1_formats_x0", Formats, formats_version_1(&x0()));
    accept(cases, "v1_formats_x0_texts_currencies", Formats, formats_version_1(&full_x0()));
    let left = |more: &[u8]| formats_version_1(&[&x0(), more].concat());
    refuse(cases, "v1_x0_one_byte_left", 6, (Formats, left(&[0])), REGION + 50);
    refuse(cases, "v1_x0_twice", 6, (Formats, left(&x0())), REGION + 50);
    let long = changed(formats_version_1(&[]), 27, 1);
    refuse(cases, "v1_formats_region_does_not_fit", 2, (Formats, long), 25);
    let shortest = Parts::shortest_version_1();
    cases.refuse_cut("v1_formats_region_count_cut", 2, &shortest, (Formats, 25), 3);
}

/// The region ends inside X0, after the first byte of a field or before it.
fn x0_cut_cases(cases: &mut Cases) {
    for (name, length, offset) in [
        ("second_byte", 1, 1),
        ("last_byte", 13, 13),
        ("command", 14, 14),
        ("command_inside", 17, 14),
        ("command_local", 18, 18),
        ("language", 22, 22),
        ("charset", 26, 26),
        ("locale", 30, 30),
        ("locale_inside", 33, 30),
        ("x10", 34, 34),
        ("leading_zero", 35, 35),
        ("x12", 36, 36),
        ("x13", 37, 37),
        ("epoch", 38, 38),
        ("epoch_inside", 41, 38),
        ("decimal", 42, 42),
        ("grouping", 43, 43),
        ("currencies", 44, 44),
        ("currencies_inside", 47, 44),
        ("missing", 48, 48),
        ("x17", 49, 49),
    ] {
        let content = formats_version_1(&x0()[..length]);
        refuse(cases, &format!("v1_x0_cut_{name}"), 2, (Formats, content), REGION + offset);
    }
}

fn x0_content_cases(cases: &mut Cases) {
    for (name, offset) in [("x10", 34), ("leading_zero", 35), ("x12", 36), ("x13", 37), ("x17", 49)]
    {
        let content = formats_version_1(&changed(x0(), offset, 2));
        refuse(cases, &format!("v1_x0_{name}_not_bool"), 5, (Formats, content), REGION + offset);
    }
    for (name, offset) in
        [("command", 14), ("command_local", 18), ("language", 22), ("charset", 26), ("locale", 30)]
    {
        let mut content = x0();
        content.splice(offset..offset + 4, string(b"a\0"));
        let content = (Formats, formats_version_1(&content));
        refuse(cases, &format!("v1_x0_zero_in_{name}"), 18, content, REGION + offset);
    }
    let currencies = list(&[string(b"-,,,"), string(b"\0")]);
    let zero = [&x0()[..44], &currencies, b".\0"].concat();
    let zero = (Formats, formats_version_1(&zero));
    refuse(cases, "v1_x0_zero_in_currency", 18, zero, REGION + 48 + 8);
    // 28 bytes follow the length of the second string, 29 are announced.
    let long = formats_version_1(&changed(x0(), 18, 29));
    refuse(cases, "v1_x0_string_does_not_fit", 2, (Formats, long), REGION + 18);
    let many = [&x0()[..44], &[0xff; 4], b".\0"].concat();
    let many = formats_version_1(&many);
    refuse(cases, "v1_x0_currencies_four_billion", 2, (Formats, many), REGION + 48);
}

fn after_zeros(zeros: usize, value: Vec<u8>) -> Vec<u8> {
    [vec![0; zeros], value].concat()
}

/// Before the raw form of a cell's own Value there are 0 to 5 zero bytes.
fn cell_zero_cases(cases: &mut Cases) {
    for zeros in [0, 4, 5] {
        let parts = with_cells(&[after_zeros(zeros, template()), template()]);
        cases.accept(&format!("v1_cell_{zeros}_zeros"), &parts, [1, 2, 2]);
    }
    let second = with_cells(&[template(), after_zeros(5, template())]);
    cases.accept("v1_second_cell_5_zeros", &second, [1, 2, 2]);
    let six = with_cells(&[after_zeros(6, template())]);
    cases.refuse("v1_cell_6_zeros", 3, &six, Cells, FIRST_CELL + 5);
    cases.refuse_cut("v1_cell_6_zeros_no_more", 3, &six, (Cells, FIRST_CELL + 5), 1);
    cases.refuse_cut("v1_cell_5_zeros_no_more", 2, &six, (Cells, FIRST_CELL + 5), 0);
    cases.refuse_cut("v1_cell_4_zeros_no_more", 2, &six, (Cells, FIRST_CELL + 4), 0);
    cases.refuse_cut("v1_cell_no_more", 2, &six, (Cells, FIRST_CELL), 0);
    let wrong = with_cells(&[after_zeros(5, vec![7])]);
    cases.refuse("v1_cell_5_zeros_first_byte_07", 3, &wrong, Cells, FIRST_CELL + 5);
}

/// All other Values have 0 to 4 of them.
fn other_zero_cases(cases: &mut Cases) {
    let named = |zeros| {
        let name = after_zeros(zeros, template());
        table_of(&[named_dimension(&name, &[leaf(0)])], &[0]).in_version_1()
    };
    cases.accept("v1_dimension_name_4_zeros", &named(4), [1, 1, 1]);
    cases.refuse("v1_dimension_name_5_zeros", 3, &named(5), Dimensions, 4 + 4);
    let leaf = named_leaf(&after_zeros(5, template()), 0);
    let category = table_of(&[dimension(&[leaf])], &[0]).in_version_1();
    cases.refuse("v1_category_name_5_zeros", 3, &category, Dimensions, 4 + 26 + 4);
    let title = |zeros| titled(&after_zeros(zeros, template()));
    accept(cases, "v1_title_4_zeros", Titles, title(4));
    refuse(cases, "v1_title_5_zeros", 3, (Titles, title(5)), 4);
    let footnote = [after_zeros(5, template()), vec![0x58], int32(1)].concat();
    refuse(cases, "v1_footnote_5_zeros", 3, (Footnotes, list(&[footnote])), 4 + 4);
    // The argument of a cell's template; its Value starts at 13 in the template.
    let argument = |before, zeros| {
        let template = [one_argument(), after_zeros(zeros, template())].concat();
        with_cells(&[after_zeros(before, template)])
    };
    cases.accept("v1_cell_argument_4_zeros", &argument(5, 4), [1, 2, 1]);
    let place = FIRST_CELL + 13 + 4;
    cases.refuse("v1_cell_argument_5_zeros", 3, &argument(0, 5), Cells, place);
    cases.refuse("v1_cell_5_zeros_argument_5_zeros", 3, &argument(5, 5), Cells, 5 + place);
}

/// A template up to the Value of its only argument, 13 bytes.
fn one_argument() -> Vec<u8> {
    [vec![0x58], string(b""), int32s(&[1, 0])].concat()
}

/// What follows the 31 of the shortest ValueMod of version 3.
fn modifiers() -> Vec<u8> {
    [int32s(&[0, 0]), count(&[count(&[]), vec![0x58, 0x58]].concat())].concat()
}

/// A ValueMod that begins 31 is left out in version 1; another byte there is wrong as before.
fn modifier_cases(cases: &mut Cases) {
    let number = || [int32(0), vec![0; 8]].concat();
    let texts = || string(b"").repeat(2);
    for (name, before, after) in [
        ("01", vec![1], number()),
        ("02", vec![2], [number(), texts(), vec![0]].concat()),
        ("03", [vec![3], string(b"local")].concat(), [texts(), vec![0]].concat()),
        ("04", vec![4], [int32(0), texts(), vec![0], string(b"s")].concat()),
        ("05", vec![5], [texts(), vec![0]].concat()),
        ("06", [vec![6], string(b"local")].concat(), texts()),
        ("template", vec![], [string(b""), int32(0)].concat()),
        ("zeros_template", vec![0; 4], [string(b""), int32(0)].concat()),
    ] {
        let with = |modifier: &[u8]| titled(&[&before, modifier, &after].concat());
        let place = before.len();
        let long = with(&[vec![0x31], modifiers()].concat());
        accept(cases, &format!("v1_{name}_58"), Titles, with(&[0x58]));
        refuse(cases, &format!("v1_{name}_31"), 4, (Titles, long.clone()), place);
        let name_of = |what: &str| format!("v1_{name}_{what}");
        let long = version_1(Titles, long);
        cases.refuse_cut(&name_of("31_no_more"), 4, &long, (Titles, place), 1);
        cases.refuse_cut(&name_of("no_modifier"), 2, &long, (Titles, place), 0);
        refuse(cases, &name_of("30"), 3, (Titles, with(&[0x30])), place);
        refuse(cases, &name_of("59"), 3, (Titles, with(&[0x59])), place);
    }
    // The string before the ValueMod comes first.
    let zero = titled(&[vec![3], string(b"\0"), vec![0x31], modifiers()].concat());
    refuse(cases, "v1_03_zero_before_31", 18, (Titles, zero), 1);
}

/// The 31 of a ValueMod in every place that has a Value.
fn modifier_place_cases(cases: &mut Cases) {
    let t = template;
    let long = || [vec![0x31], modifiers(), string(b""), int32(0)].concat();
    let end = || vec![0x58, 0x58];
    accept(cases, "v1_titles_marks_31", Titles, all_titles());
    for (name, titles, offset) in [
        ("subtype", [t(), long(), vec![0x31], t(), end()].concat(), 9),
        ("marked_subtype", [t(), vec![1], long(), vec![0x31], t(), end()].concat(), 10),
        ("user_title", [t(), t(), vec![0x31], long(), end()].concat(), 19),
        ("corner", [t(), t(), vec![0x31], t(), vec![0x31], long(), vec![0x58]].concat(), 29),
        ("caption", [t(), t(), vec![0x31], t(), vec![0x58, 0x31], long()].concat(), 30),
    ] {
        refuse(cases, &format!("v1_31_in_{name}"), 4, (Titles, titles), offset);
    }
    // No subtype: the 31 that stands after it is read as its ValueMod.
    let absent = [t(), vec![0x31], t(), end()].concat();
    refuse(cases, "v1_31_subtype_absent", 4, (Titles, absent), 9);
    let footnote = |text: Vec<u8>, marker: Vec<u8>| list(&[[text, marker, int32(1)].concat()]);
    let marker = |value: Vec<u8>| [vec![0x31], value].concat();
    accept(cases, "v1_footnote_marker", Footnotes, footnote(t(), marker(t())));
    let text = footnote(long(), vec![0x58]);
    refuse(cases, "v1_31_in_footnote", 4, (Footnotes, text), 4);
    let marker = footnote(t(), marker(long()));
    refuse(cases, "v1_31_in_footnote_marker", 4, (Footnotes, marker), 4 + 9 + 1);
    let dimension_name = table_of(&[named_dimension(&long(), &[])], &[]).in_version_1();
    cases.refuse("v1_31_in_dimension_name", 4, &dimension_name, Dimensions, 4);
    let leaves = [leaf(0), named_leaf(&long(), 1)];
    let category_name = table_of(&[dimension(&leaves)], &[]).in_version_1();
    cases.refuse("v1_31_in_category_name", 4, &category_name, Dimensions, 4 + 26 + 24);
    cases.refuse("v1_31_in_cell", 4, &with_cells(&[long()]), Cells, FIRST_CELL);
    let zeros = with_cells(&[t(), after_zeros(5, long())]);
    cases.refuse("v1_31_in_cell_5_zeros", 4, &zeros, Cells, FIRST_CELL + 9 + 8 + 5);
    let six = with_cells(&[after_zeros(6, long())]);
    cases.refuse("v1_31_in_cell_6_zeros", 3, &six, Cells, FIRST_CELL + 5);
    let argument = titled(&[one_argument(), long()].concat());
    refuse(cases, "v1_31_in_argument", 4, (Titles, argument), 13);
    // An argument with two values, the second a number.
    let start = [vec![0x58], string(b""), int32s(&[1, 2, 0]), t()].concat();
    let second = [start, vec![1, 0x31], modifiers(), vec![0; 12]].concat();
    refuse(cases, "v1_31_in_second_value", 4, (Titles, titled(&second)), 17 + 9 + 1);
    let cell_argument = with_cells(&[[one_argument(), long()].concat()]);
    cases.refuse("v1_31_in_cell_argument", 4, &cell_argument, Cells, FIRST_CELL + 13);
}

/// A Value that is too deep is refused before its first byte is read.
fn depth_cases(cases: &mut Cases) {
    let nested = |levels: usize, last: &[u8]| [&one_argument().repeat(levels), last].concat();
    let title = |levels, last: &[u8]| version_1(Titles, titled(&nested(levels, last)));
    cases.accept("v1_depth8", &title(7, &template()), [0, 0, 0]);
    cases.refuse("v1_depth8_31", 4, &title(7, &[0x31]), Titles, 7 * 13);
    cases.refuse("v1_depth9_31", 7, &title(8, &[0x31]), Titles, 8 * 13);
    cases.refuse_cut("v1_depth9_31_no_more", 7, &title(8, &[0x31]), (Titles, 8 * 13), 1);
    cases.refuse_cut("v1_depth9_no_byte_left", 7, &title(8, &[]), (Titles, 8 * 13), 0);
    cases.refuse("v1_depth9_zeros", 7, &title(8, &[0, 0, 0, 0, 0]), Titles, 8 * 13);
    let cell = |levels, last: &[u8]| with_cells(&[after_zeros(5, nested(levels, last))]);
    cases.accept("v1_cell_depth8", &cell(7, &template()), [1, 2, 1]);
    let place = FIRST_CELL + 5 + 8 * 13;
    cases.refuse("v1_cell_depth9", 7, &cell(8, &[0x31]), Cells, place);
}

/// The form of one version in a member of the other.
fn other_version_cases(cases: &mut Cases) {
    let three = Parts::shortest_with;
    // The margins of the first area end inside the second: there is the second byte of its halign,
    // 64,173, where the index must be.
    cases.refuse("v3_areas_of_version_1", 3, &three(Areas, areas_version_1()), Areas, 56);
    let settings = three(TableSettings, count(&[]));
    cases.refuse("v3_table_settings_empty", 2, &settings, TableSettings, 4);
    let free = three(TableSettings, count(&[7; 5]));
    cases.refuse("v3_table_settings_free", 3, &free, TableSettings, 4);
    let empty = three(Formats, formats_version_1(&[]));
    cases.refuse("v3_formats_region_empty", 2, &empty, Formats, REGION);
    // The first four of the fourteen bytes, 0 to 3, are read as a count.
    cases.refuse("v3_formats_x0", 2, &three(Formats, formats_version_1(&x0())), Formats, REGION);
    let zeros = |zeros| {
        let cell = [int64(0), after_zeros(zeros, template())].concat();
        table(&[2], &[]).with(Cells, list(&[cell]))
    };
    cases.accept("v3_cell_4_zeros", &zeros(4), [1, 2, 1]);
    cases.refuse("v3_cell_5_zeros", 3, &zeros(5), Cells, FIRST_CELL + 4);
    let member = Parts::shortest_version_1().with_byte(Header, 2, 3);
    cases.refuse("v1_member_called_3", 3, &member, Areas, 56);
    let member = Parts::shortest().with_byte(Header, 2, 1);
    cases.refuse("v3_member_called_1", 3, &member, Areas, 40);
    // The two numbers of X1, -1, are at 14 in the region read as the first string's length.
    refuse(cases, "v1_formats_of_version_3", 2, (Formats, formats()), REGION + 14);
}
