//! Value, Argument, ValueMod and TemplateString, all in the title.

use super::Cases;
use crate::encode::*;
use crate::parts::*;
use Section::*;

pub fn add(cases: &mut Cases) {
    form_cases(cases);
    first_byte_cases(cases);
    depth_cases(cases);
    argument_cases(cases);
    value_mod_cases(cases);
    template_string_cases(cases);
    style_cases(cases);
}

/// The shortest member with another title.
fn titled(title: &[u8]) -> Parts {
    let rest = &titles()[9..];
    Parts::shortest_with(Titles, [title, rest].concat())
}

fn accept(cases: &mut Cases, name: &str, title: &[u8]) {
    cases.accept(name, &titled(title), [0, 0, 0]);
}

/// Refused at `offset` in the title.
fn refuse(cases: &mut Cases, name: &str, number: u32, title: &[u8], offset: usize) {
    cases.refuse(name, number, &titled(title), Titles, offset);
}

fn form_cases(cases: &mut Cases) {
    let none = || vec![0x58];
    let number = [none(), int32(0x0005_2802), 17f64.to_le_bytes().to_vec()].concat();
    let labelled = [vec![2], number.clone(), string(b"v"), string(b"label"), vec![3]].concat();
    let text = [string(b"local"), none(), string(b"id"), string(b"c")].concat();
    let labelled_string = [
        vec![4],
        none(),
        int32(0x0001_0800),
        string(b"label"),
        string(b"v"),
        vec![2],
        string(b"s"),
    ];
    let variable = [vec![5], none(), string(b"v"), string(b"label"), vec![1]];
    let arguments = list(&[[int32(0), [vec![1], number.clone()].concat()].concat()]);
    let template = [none(), string(b"n = ^1"), arguments];

    accept(cases, "value_01_number", &[vec![1], number].concat());
    accept(cases, "value_02_labelled_number", &labelled);
    accept(cases, "value_03_text", &[vec![3], text.clone(), vec![1]].concat());
    let bad = [vec![3], text.clone(), vec![2]].concat();
    refuse(cases, "value_03_fixed_not_bool", 5, &bad, bad.len() - 1);
    accept(cases, "value_04_string", &labelled_string.concat());
    accept(cases, "value_05_variable", &variable.concat());
    accept(cases, "value_06_text", &[vec![6], text].concat());
    accept(cases, "value_58_template", &template.concat());
}

fn first_byte_cases(cases: &mut Cases) {
    let zeros = |number: usize| [vec![0; number], template()].concat();
    accept(cases, "value_four_zeros", &zeros(4));
    refuse(cases, "value_five_zeros", 3, &zeros(5), 4);
    refuse(cases, "value_first_byte_07", 3, &[0, 0, 7], 2);
    cases.refuse_cut("value_zeros_then_end", 2, &titled(&zeros(3)), (Titles, 3), 0);
    let long = [vec![6], int32(2_000), vec![0; 5]].concat();
    refuse(cases, "value_string_too_long", 2, &long, 1);
    let huge = [vec![0x58], int32(u32::MAX), vec![0; 4]].concat();
    refuse(cases, "value_string_four_billion", 2, &huge, 1);
}

/// Templates with one argument each, `depth` of them one inside the other; 13 bytes a level.
fn nested(depth: usize) -> Vec<u8> {
    let level = [vec![0x58], string(b""), int32s(&[1, 0])].concat();
    [level.repeat(depth - 1), template()].concat()
}

fn depth_cases(cases: &mut Cases) {
    accept(cases, "value_depth8", &nested(8));
    refuse(cases, "value_depth9", 7, &nested(9), 8 * 13);
    cases.refuse_cut("value_depth9_no_byte_left", 7, &titled(&nested(9)), (Titles, 8 * 13), 0);
    // The second value of an argument is as deep as the first.
    let second = [vec![0x58], string(b""), int32s(&[1, 2, 0]), template(), nested(8)].concat();
    refuse(cases, "value_depth9_second_value", 7, &second, 17 + 9 + 7 * 13);
}

fn argument_cases(cases: &mut Cases) {
    let arguments = |content: Vec<u8>| [vec![0x58], string(b""), content].concat();
    let two = [int32s(&[2, 0]), template(), int32s(&[3, 0]), template().repeat(3)].concat();
    accept(cases, "arguments_one_and_three_values", &arguments(two));
    let not_zero = [int32s(&[1, 2, 1]), template().repeat(2)].concat();
    refuse(cases, "argument_number_not_0", 3, &arguments(not_zero), 13);
    let short = arguments(int32s(&[1, 1, 0]));
    cases.refuse_cut("argument_number_cut", 2, &titled(&short), (Titles, 13), 3);
    let huge = arguments(int32(u32::MAX));
    cases.refuse_cut("arguments_four_billion", 2, &titled(&huge), (Titles, 9), 3);
    let many = titled(&arguments([int32s(&[1, u32::MAX, 0]), template()].concat()));
    cases.refuse_cut("argument_four_billion_values", 2, &many, (Titles, 17 + 9), 0);
}

/// A template with the ValueMod 31, without references and subscripts.
/// Its count stands at 9, the region starts at 13.
fn modified(region: &[u8]) -> Vec<u8> {
    [vec![0x31], int32s(&[0, 0]), count(region), string(b""), int32(0)].concat()
}

fn value_mod_cases(cases: &mut Cases) {
    let region = || [count(&[]), vec![0x58, 0x58]].concat();
    accept(cases, "value_mod_shortest", &modified(&region()));
    let lists = [list(&[int16(0), int16(256)]), list(&[string(b"a"), string(b"")])].concat();
    let full = [vec![5, 0x31], lists, count(&region()), string(b"v"), string(b""), vec![0]];
    accept(cases, "value_mod_references_subscripts", &full.concat());
    refuse(cases, "value_mod_first_byte", 3, &[1, 0x30, 0, 0], 1);
    refuse(cases, "value_mod_region_left", 6, &modified(&[region(), vec![0]].concat()), 13 + 6);
    let mut long = modified(&region());
    long[10] = 0x40;
    refuse(cases, "value_mod_region_does_not_fit", 2, &long, 9);
    // The region ends before the mark of the CellStyle.
    refuse(cases, "value_mod_region_short", 2, &modified(&region()[..5]), 13 + 5);
    let references = [vec![0x31], int32(u32::MAX)].concat();
    cases.refuse_cut("value_mod_references_cut", 2, &titled(&references), (Titles, 5), 1);
    let subscripts = [vec![0x31], int32s(&[0, u32::MAX])].concat();
    cases.refuse_cut("value_mod_subscripts_cut", 2, &titled(&subscripts), (Titles, 9), 2);
}

/// A TemplateString with this content and no styles.
/// Its count stands at 13, the content starts at 17.
fn template_string(content: &[u8]) -> Vec<u8> {
    modified(&[count(content), vec![0x58, 0x58]].concat())
}

fn template_string_cases(cases: &mut Cases) {
    // `prefix` is the inner region; it starts at 21.
    let with_prefix =
        |prefix: &[u8], rest: &[u8]| template_string(&[&count(prefix), rest].concat());
    let id = [vec![0x31], string(b"^1")].concat();
    accept(cases, "template_string_no_prefix_no_id", &with_prefix(&[], &[0x58]));
    accept(cases, "template_string_no_prefix_id", &with_prefix(&[], &id));
    accept(cases, "template_string_prefix_58_id", &with_prefix(&[0, 0, 0, 0, 0x58], &id));
    accept(cases, "template_string_prefix_31_55", &with_prefix(&[0, 0, 0, 0, 0x31, 0x55], &[0x58]));
    let wrong_55 = with_prefix(&[0, 0, 0, 0, 0x31, 0x54], &[0x58]);
    refuse(cases, "template_string_prefix_31_54", 3, &wrong_55, 26);
    let wrong_0 = with_prefix(&[0, 0, 0, 1, 0x58], &[0x58]);
    refuse(cases, "template_string_prefix_number_not_0", 3, &wrong_0, 21);
    refuse(cases, "template_string_prefix_short", 2, &with_prefix(&[0, 0, 0], &[0x58]), 21);
    let left = with_prefix(&[0, 0, 0, 0, 0x58, 0x55], &[0x58]);
    refuse(cases, "template_string_prefix_left", 6, &left, 26);
    refuse(cases, "template_string_left", 6, &with_prefix(&[], &[0x58, 0x58]), 22);
    refuse(cases, "template_string_mark_absent", 2, &with_prefix(&[], &[]), 21);
    refuse(cases, "template_string_one_byte", 2, &template_string(&[0]), 17);
}

/// A ValueMod with these styles; they start at 17.
fn styled(styles: &[u8]) -> Vec<u8> {
    modified(&[&count(&[]), styles].concat())
}

fn style_cases(cases: &mut Cases) {
    let text = [string(b"#000000"), string(b"#ffffff"), string(b"Arial"), vec![9]].concat();
    let font = [vec![0x31, 1, 0, 0, 1], text].concat();
    let numbers = [int32s(&[6, 3]), 1.5f64.to_le_bytes().to_vec()].concat();
    let cell = [vec![0x31], numbers, [1, 2, 3, 4].map(int16).concat()].concat();
    accept(cases, "style_font", &styled(&[font.clone(), vec![0x58]].concat()));
    accept(cases, "style_cell", &styled(&[vec![0x58], cell.clone()].concat()));
    accept(cases, "style_font_and_cell", &styled(&[font.clone(), cell].concat()));
    let mut bad = styled(&[font, vec![0x58]].concat());
    bad[21] = 0x58;
    refuse(cases, "style_font_bool", 5, &bad, 21);
    refuse(cases, "style_cell_mark", 3, &styled(&[0x58, 0x01]), 18);
}
