//! A zero byte inside a string: document 02, T-06.

use super::Cases;
use crate::encode::*;
use crate::line::{line, read};
use crate::parts::*;
use Section::*;

pub fn add(cases: &mut Cases) {
    value_strings(cases);
    modifier_strings(cases);
    section_strings(cases);
    handed_out_strings(cases);
    order_cases(cases);
    accepted_cases(cases);
}

/// A string with a zero byte first, last or as its only byte is refused with 18 at its length. The
/// member without it is accepted. `with` gives the member and how far behind the start of `section`
/// the string's length stands, for the encoded string.
fn each_zero(
    cases: &mut Cases,
    name: &str,
    (section, encode): (Section, fn(&[u8]) -> Vec<u8>),
    with: impl Fn(&[u8]) -> (Parts, usize),
) {
    for (which, text) in [("first", &b"\0ab"[..]), ("last", b"ab\0"), ("only", b"\0")] {
        let (parts, offset) = with(&encode(text));
        cases.refuse(&format!("zero_{which}_{name}"), 18, &parts, section, offset);
    }
    let (parts, _) = with(&encode(b"\x01\xff"));
    assert!(line(&read(&parts.bytes()).answer).starts_with("accepted"), "{name}");
}

/// The shortest member with this title.
fn titled(title: &[u8]) -> Parts {
    Parts::shortest_with(Titles, [title, &titles()[9..]].concat())
}

/// A title of these bytes, the string, and these bytes.
fn in_title(cases: &mut Cases, name: &str, before: &[u8], after: &[u8]) {
    each_zero(cases, name, (Titles, string), |text| {
        (titled(&[before, text, after].concat()), before.len())
    });
}

fn value_strings(cases: &mut Cases) {
    let empty = || string(b"");
    let number = [vec![0x58], int32(0), 17f64.to_le_bytes().to_vec()].concat();
    let form02 = [vec![2], number].concat();
    in_title(cases, "02_var_name", &form02, &[empty(), vec![1]].concat());
    in_title(cases, "02_value_label", &[form02, string(b"v")].concat(), &[1]);
    let tail = || [vec![0x58], empty(), empty(), vec![0]].concat();
    in_title(cases, "03_local", &[3], &tail());
    let local = |form: u8| [vec![form], string(b"l"), vec![0x58]].concat();
    in_title(cases, "03_id", &local(3), &[empty(), vec![0]].concat());
    in_title(cases, "03_c", &[local(3), string(b"i")].concat(), &[0]);
    let form04 = [vec![4, 0x58], int32(0)].concat();
    let form04_after = [empty(), vec![1], empty()].concat();
    in_title(cases, "04_value_label", &form04, &form04_after);
    let labelled = [form04, string(b"l")].concat();
    in_title(cases, "04_var_name", &labelled, &[vec![1], empty()].concat());
    in_title(cases, "04_s", &[labelled, string(b"v"), vec![1]].concat(), &[]);
    in_title(cases, "05_var_name", &[5, 0x58], &[empty(), vec![1]].concat());
    in_title(cases, "05_var_label", &[vec![5, 0x58], string(b"v")].concat(), &[1]);
    in_title(cases, "06_local", &[6], &[vec![0x58], empty(), empty()].concat());
    in_title(cases, "06_id", &local(6), &empty());
    in_title(cases, "06_c", &[local(6), string(b"i")].concat(), &[]);
    in_title(cases, "template", &[0x58], &list(&[]));
    // In a template's argument, as one of two values.
    let argument = [vec![0x58], empty(), int32s(&[1, 2, 0]), template(), vec![0x58]].concat();
    in_title(cases, "argument", &argument, &list(&[]));
}

/// A template with the ValueMod 31, whose region holds these bytes, the string, and these bytes.
fn in_modifier(cases: &mut Cases, name: &str, before: &[u8], after: &[u8]) {
    each_zero(cases, name, (Titles, string), |text| {
        let region = count(&[before, text, after].concat());
        let title = [vec![0x31], int32s(&[0, 0]), region, string(b""), int32(0)].concat();
        (titled(&title), 13 + before.len())
    });
}

fn modifier_strings(cases: &mut Cases) {
    each_zero(cases, "subscript", (Titles, string), |text| {
        let region = count(&[count(&[]), vec![0x58, 0x58]].concat());
        let start = [vec![0x31], int32s(&[0, 2]), string(b"a")].concat();
        let title = [&start, text, &region, &string(b""), &int32(0)].concat();
        (titled(&title), start.len())
    });
    // The counts of the TemplateString stand before the text that is counted.
    each_zero(cases, "template_string_id", (Titles, string), |text| {
        let content = count(&[&count(&[])[..], &[0x31], text].concat());
        let region = count(&[content, vec![0x58, 0x58]].concat());
        let title = [vec![0x31], int32s(&[0, 0]), region, string(b""), int32(0)].concat();
        (titled(&title), 9 + 4 + 4 + 4 + 1)
    });
    let style = [count(&[]), vec![0x31, 1, 0, 0, 1]].concat();
    let two = [string(b""), string(b"")].concat();
    in_modifier(cases, "font_fg", &style, &[&two[..], &[9, 0x58]].concat());
    let fg = [style, string(b"#")].concat();
    in_modifier(cases, "font_bg", &fg, &[string(b""), vec![9, 0x58]].concat());
    in_modifier(cases, "font_typeface", &[fg, string(b"#")].concat(), &[9, 0x58]);
}

fn section_strings(cases: &mut Cases) {
    for (name, offset) in [("typeface", 2), ("fg", 23), ("bg", 27), ("alt_fg", 32), ("alt_bg", 36)]
    {
        each_zero(cases, &format!("area_{name}"), (Areas, string), |text| {
            let mut content = areas();
            content.splice(56 + offset..56 + offset + 4, text.to_vec());
            (Parts::shortest_with(Areas, content), 56 + offset)
        });
    }
    each_zero(cases, "continuation", (PrintSettings, bestring), |text| {
        let content = count(&[&print_settings_content(b"")[..14], text].concat());
        (Parts::shortest_with(PrintSettings, content), 18)
    });
    let settings = || [table_settings_start(), becount(&no_breaks_and_keeps())].concat();
    each_zero(cases, "notes", (TableSettings, bestring), |text| {
        let content = count(&[&settings(), text, &bestring(b"")].concat());
        (Parts::shortest_with(TableSettings, content), 4 + 45)
    });
    each_zero(cases, "table_look", (TableSettings, bestring), |text| {
        let content = count(&[&settings(), &bestring(b""), text].concat());
        (Parts::shortest_with(TableSettings, content), 4 + 49)
    });
    each_zero(cases, "locale", (Formats, string), |text| {
        let content = [&int32(0), text, &formats()[8..]].concat();
        (Parts::shortest_with(Formats, content), 4)
    });
    each_zero(cases, "currency", (Formats, string), |text| {
        let start = [&formats()[..21], &int32(2), &string(b"-,,,")].concat();
        (Parts::shortest_with(Formats, [&start, text, &formats()[25..]].concat()), start.len())
    });
    each_zero(cases, "x2_style", (Formats, string), |text| {
        let font = [&[0x31, 1, 1, 0, 1], text, &string(b"").repeat(2), &[12, 0x58]].concat();
        let x2 = [list(&[]), list(&[]), list(&[font]), count(&[])].concat();
        (Parts::shortest_with(Formats, formats_with(&x2, &[])), 33 + 33 + 4 + 12 + 5)
    });
}

/// Names and cells, which the records point to.
fn handed_out_strings(cases: &mut Cases) {
    let value = |text: &[u8]| [&[5, 0x58], text, &string(b""), &[0]].concat();
    each_zero(cases, "dimension_name", (Dimensions, string), |text| {
        (table_of(&[named_dimension(&value(text), &[leaf(0)])], &[0]), 4 + 2)
    });
    each_zero(cases, "category_name", (Dimensions, string), |text| {
        let leaves = [leaf(0), named_leaf(&value(text), 1)];
        (table_of(&[dimension(&leaves)], &[0]), 4 + 26 + 24 + 2)
    });
    each_zero(cases, "cell", (Cells, string), |text| {
        let second = [int64(1), value(text)].concat();
        (table(&[2], &[]).with(Cells, list(&[cell(0), second])), 4 + 17 + 8 + 2)
    });
}

/// 2 for a string that does not fit is before 18; 18 is before anything behind the string.
fn order_cases(cases: &mut Cases) {
    let content = print_settings_content(b"a\0b");
    let short = Parts::shortest_with(PrintSettings, count(&content[..20]));
    cases.refuse("zero_in_a_region_too_short", 2, &short, PrintSettings, 18);
    let title = [vec![6], int32(3), vec![b'a', 0]].concat();
    cases.refuse_cut("zero_in_a_string_cut", 2, &titled(&title), (Titles, 1), 6);
    let cut = titled(&[vec![6], int32(2), vec![b'a', 0]].concat());
    cases.refuse_cut("zero_then_no_byte", 18, &cut, (Titles, 1), 6);
    let left = count(&[print_settings_content(b"\0"), vec![0]].concat());
    let left = Parts::shortest_with(PrintSettings, left);
    cases.refuse("zero_before_a_byte_left", 18, &left, PrintSettings, 18);
    let two = [vec![6], string(b"a"), vec![0x30], string(b"\0"), string(b"\0")].concat();
    cases.refuse("zero_after_a_wrong_byte", 3, &titled(&two), Titles, 6);
    let both = [vec![6], string(b"\0"), vec![0x30], string(b"\0"), string(b"")].concat();
    cases.refuse("zero_before_a_wrong_byte", 18, &titled(&both), Titles, 1);
}

fn accepted_cases(cases: &mut Cases) {
    let all: Vec<u8> = (1..=255).collect();
    let text = [vec![6], string(&all), vec![0x58], string(b""), string(&all[100..])].concat();
    cases.accept("no_zero_any_other_byte", &titled(&text), [0, 0, 0]);
    // The tail of TableSettings and the region of X3 are no strings.
    let tail = count(&[&table_settings()[4..], &[0, b'a', 0]].concat());
    let tail = Parts::shortest_with(TableSettings, tail);
    cases.accept("zeros_in_the_tail", &tail, [0, 0, 0]);
    let x3 = Parts::shortest_with(Formats, formats_with(&x2(&[]), &[0, b'a', 0]));
    cases.accept("zeros_in_x3", &x3, [0, 0, 0]);
}
