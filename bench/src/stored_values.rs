//! The Values and Arguments that the program `values_main` reads, and the line expected of each.

use crate::contents::{argument_contents, contents, ArgumentContents, Contents, Form, Text};
use crate::cursor::Span;
use crate::damage::damaged;
use crate::encode::*;
use crate::generate::{any_value, argument_of_value};
use crate::random::Random;
use crate::refusal::Refusal;
use crate::version::Version;

#[derive(Clone, Copy, Debug, PartialEq, Eq)]
pub enum Kind {
    Value,
    Argument,
}

/// Bytes that begin with a Value or an Argument, or do not.
pub struct StoredValue {
    pub version: u8,
    pub kind: Kind,
    pub bytes: Vec<u8>,
}

impl StoredValue {
    /// As it stands in the input: version, kind, length and bytes.
    fn entry(&self) -> Vec<u8> {
        let kind = u8::from(self.kind == Kind::Argument);
        [&[self.version, kind], &int16(self.bytes.len() as u16)[..], &self.bytes].concat()
    }

    /// The line of the independent reader.
    pub fn line(&self) -> String {
        let version = self.version.into();
        match self.kind {
            Kind::Value => value_line(&contents(version, &self.bytes)),
            Kind::Argument => argument_line(&argument_contents(version, &self.bytes)),
        }
    }
}

/// The input of the program.
pub fn input() -> Vec<u8> {
    stored_values().iter().flat_map(StoredValue::entry).collect()
}

/// What it prints.
pub fn output() -> String {
    stored_values().iter().map(|value| value.line() + "\n").collect()
}

/// The words of a Value's answer, the bits of its double as one number.
fn value_line(result: &Result<Contents, Refusal>) -> String {
    let none = Span { place: 0, length: 0 };
    let (mut words, mut strings, mut arguments) = ([0u64; 9], [none; 5], [0; 2]);
    match result {
        Err(refusal) => words[..2].copy_from_slice(&[refusal.number.into(), refusal.place as u64]),
        Ok(Contents { length, zeros, form }) => {
            words[2..4].copy_from_slice(&[*length as u64, *zeros as u64]);
            let fields = form_fields(form);
            words[4..].copy_from_slice(&fields.numbers);
            strings = fields.strings.map(|string| string.unwrap_or(none));
            arguments = fields.arguments;
        }
    }
    let strings = strings.into_iter().flat_map(|string| [string.place, string.length]);
    let strings = strings.map(|number| number as u64);
    line("value", words.into_iter().chain(strings).chain(arguments))
}

fn argument_line(result: &Result<ArgumentContents, Refusal>) -> String {
    let words = match *result {
        Err(refusal) => [refusal.number.into(), refusal.place as u64, 0, 0, 0],
        Ok(ArgumentContents { length, values, first }) => {
            [0, 0, length as u64, values.into(), first as u64]
        }
    };
    line("argument", words)
}

fn line(name: &str, numbers: impl IntoIterator<Item = u64>) -> String {
    numbers.into_iter().fold(name.to_string(), |line, number| format!("{line} {number}"))
}

struct Fields {
    /// Form, format, bits, show and fixed.
    numbers: [u64; 5],
    /// Text, var-name, label, id and c.
    strings: [Option<Span>; 5],
    /// How many, and where the first starts.
    arguments: [u64; 2],
}

fn form_fields(form: &Form) -> Fields {
    let mut fields = Fields { numbers: [0; 5], strings: [None; 5], arguments: [0; 2] };
    let text = |text: Text| [Some(text.local), None, None, Some(text.id), Some(text.c)];
    match *form {
        Form::Number(number) => fields.numbers = [1, number.format.into(), number.bits, 0, 0],
        Form::LabelledNumber { number, var_name, value_label, show } => {
            fields.numbers = [2, number.format.into(), number.bits, show.into(), 0];
            fields.strings = [None, Some(var_name), Some(value_label), None, None];
        }
        Form::Text { text: strings, fixed } => {
            fields.numbers = [3, 0, 0, 0, fixed.into()];
            fields.strings = text(strings);
        }
        Form::String { format, value_label, var_name, show, s } => {
            fields.numbers = [4, format.into(), 0, show.into(), 0];
            fields.strings = [Some(s), Some(var_name), Some(value_label), None, None];
        }
        Form::Variable { var_name, var_label, show } => {
            fields.numbers = [5, 0, 0, show.into(), 0];
            fields.strings = [None, Some(var_name), Some(var_label), None, None];
        }
        Form::FixedText(strings) => {
            fields.numbers = [6, 0, 0, 0, 0];
            fields.strings = text(strings);
        }
        Form::Template { template, arguments, first } => {
            fields.numbers = [7, 0, 0, 0, 0];
            fields.strings = [Some(template), None, None, None, None];
            fields.arguments = [arguments.into(), first as u64];
        }
    }
    fields
}

/// All of them, in the order of the input: chosen ones, and then generated ones and damaged copies.
pub fn stored_values() -> Vec<StoredValue> {
    let mut values = Vec::new();
    let mut add = |version: u8, kind: Kind, bytes: Vec<u8>| {
        values.push(StoredValue { version, kind, bytes });
    };
    for (version, bytes) in chosen_values() {
        add(version, Kind::Value, bytes);
    }
    for (version, bytes) in chosen_arguments() {
        add(version, Kind::Argument, bytes);
    }
    let mut random = Random::new(17);
    for number in 0..GENERATED {
        let version = [Version::One, Version::Three][number % 2];
        let value = any_value(&mut random, version);
        let argument = argument_of_value(&mut random, version);
        let own = version.number() as u8;
        add(own, Kind::Value, damaged(&value, &mut random));
        add(own, Kind::Argument, damaged(&argument, &mut random));
        add(own, Kind::Value, value);
        add(own, Kind::Argument, argument);
    }
    values
}

/// How many Values and Arguments are generated, each with a damaged copy.
const GENERATED: usize = 24;

const NO_MODIFIER: &[u8] = &[0x58];

/// A modifier with references and subscripts, and one with a template's name and styles.
fn modifiers() -> [Vec<u8>; 2] {
    let region = [count(&[]), vec![0x58, 0x58]].concat();
    let references = [list(&[int16(1), int16(2)]), list(&[string(b"a"), string(b"bc")])].concat();
    let first = [vec![0x31], references, count(&region)].concat();
    let name = [count(&[0, 0, 0, 0, 0x31, 0x55]), vec![0x31], string(b"^1")].concat();
    let colors = [string(b"#000000"), string(b"#ffffff"), string(b"Arial"), vec![9]].concat();
    let font = [vec![0x31, 1, 0, 0, 1], colors].concat();
    let margins = [1, 2, 3, 4].map(int16).concat();
    let cell = [vec![0x31], int32s(&[6, 3]), 1.5f64.to_le_bytes().to_vec(), margins].concat();
    let region = [count(&name), font, cell].concat();
    [first, [vec![0x31], int32s(&[0, 0]), count(&region)].concat()]
}

fn number(modifier: &[u8], x: f64) -> Vec<u8> {
    [&[1], modifier, &int32(0x0005_2802), &x.to_le_bytes()].concat()
}

fn labelled(modifier: &[u8], label: &[u8], show: u8) -> Vec<u8> {
    let number = [modifier, &int32(0x0005_0800), &2f64.to_le_bytes()].concat();
    [vec![2], number, string(b"sex"), string(label), vec![show]].concat()
}

fn text(modifier: &[u8]) -> Vec<u8> {
    [&string(b"Std. Error")[..], modifier, &string(b"se"), &string(b"S.E.")].concat()
}

fn value_string(modifier: &[u8], label: &[u8], show: u8) -> Vec<u8> {
    let format = [&[4], modifier, &int32(0x0001_0800)].concat();
    [format, string(label), string(b"vertebra"), vec![show], string(b"C1")].concat()
}

fn variable(modifier: &[u8], label: &[u8], show: u8) -> Vec<u8> {
    [&[5], modifier, &string(b"len"), &string(label), &[show]].concat()
}

fn template(modifier: &[u8], arguments: &[Vec<u8>]) -> Vec<u8> {
    [modifier, &string(b"n = ^1"), &list(arguments)].concat()
}

/// Templates with one argument each, so many of them one inside the other.
fn nested(depth: usize) -> Vec<u8> {
    let level = [vec![0x58], string(b""), int32s(&[1, 0])].concat();
    [level.repeat(depth - 1), template(NO_MODIFIER, &[])].concat()
}

/// Each form once, with this modifier.
fn forms(modifier: &[u8]) -> Vec<Vec<u8>> {
    let argument = [int32(0), number(modifier, 3.0)].concat();
    let two = [int32s(&[2, 0]), variable(modifier, b"", 0), number(NO_MODIFIER, 4.0)].concat();
    vec![
        number(modifier, 17.0),
        labelled(modifier, b"female", 2),
        [&[3], &text(modifier)[..], &[0]].concat(),
        [&[3], &text(modifier)[..], &[1]].concat(),
        value_string(modifier, b"first", 3),
        variable(modifier, b"Scan length", 0),
        [&[6], &text(modifier)[..]].concat(),
        template(modifier, &[]),
        template(modifier, &[argument, two]),
    ]
}

fn chosen_values() -> Vec<(u8, Vec<u8>)> {
    let mut values: Vec<(u8, Vec<u8>)> = Vec::new();
    values.extend(forms(NO_MODIFIER).into_iter().flat_map(|form| [(3, form.clone()), (1, form)]));
    for modifier in modifiers() {
        values.extend(forms(&modifier).into_iter().flat_map(|form| [(3, form.clone()), (1, form)]));
    }
    for show in [0, 1, 2, 3, 255] {
        for label in [&b""[..], b"label"] {
            values.push((3, labelled(NO_MODIFIER, label, show)));
            values.push((3, value_string(NO_MODIFIER, label, show)));
            values.push((1, variable(NO_MODIFIER, label, show)));
        }
    }
    let bits = [f64::MIN, f64::MAX, -0.0, f64::INFINITY, f64::NEG_INFINITY, f64::from_bits(1)];
    let nan = [0x7ff0_0000_0000_0001, 0xfff8_0000_0000_0000, u64::MAX].map(f64::from_bits);
    values.extend(bits.into_iter().chain(nan).map(|x| (3, number(NO_MODIFIER, x))));
    for zeros in 0..=6 {
        let value = [vec![0; zeros], number(NO_MODIFIER, 1.0)].concat();
        values.extend([1, 3].map(|version| (version, value.clone())));
    }
    values.extend([1, 2, 7, 8, 9, 10].map(|depth| (3, nested(depth))));
    values.push((3, nested(9)[..8 * 13].to_vec()));
    values.extend([0, 2, 4, 255].map(|version| (version, number(NO_MODIFIER, 1.0))));
    values.push((3, [number(NO_MODIFIER, 5.0), number(NO_MODIFIER, 6.0)].concat()));
    values.extend([vec![7], vec![0x30], vec![0; 3], vec![0; 4]].map(|bytes| (3, bytes)));
    values.push((3, [&[3], &text(NO_MODIFIER)[..], &[2]].concat()));
    values.push((3, variable(NO_MODIFIER, b"a\0b", 1)));
    let left = [count(&[]), vec![0x58, 0x58, 0]].concat();
    let left = [vec![0x31], int32s(&[0, 0]), count(&left)].concat();
    values.push((3, number(&left, 1.0)));
    values.push((3, [vec![0x58], int32s(&[0, u32::MAX])].concat()));
    // Cut at every length.
    let [modifier, _] = modifiers();
    let value = labelled(&modifier, b"ab", 1);
    values.extend((0..value.len()).map(|length| (3, value[..length].to_vec())));
    values
}

fn chosen_arguments() -> Vec<(u8, Vec<u8>)> {
    let one = number(NO_MODIFIER, 1.0);
    let three = [one.clone(), variable(NO_MODIFIER, b"", 1), nested(3)].concat();
    let mut arguments = vec![
        (3, [int32(0), one.clone()].concat()),
        (1, [int32(0), one.clone()].concat()),
        (3, [int32s(&[1, 0]), one.clone()].concat()),
        (3, [int32s(&[3, 0]), three.clone()].concat()),
        (1, [int32s(&[3, 0]), three.clone()].concat()),
        (3, [int32s(&[2, 0]), three.clone()].concat()),
        (3, [int32s(&[4, 0]), three].concat()),
        (3, [int32s(&[1, 1]), one.clone()].concat()),
        (3, [int32s(&[u32::MAX, 0]), one.clone()].concat()),
        (3, [int32(0), nested(7)].concat()),
        (3, [int32(0), nested(8)].concat()),
        (1, [vec![0; 4], vec![0; 5], one.clone()].concat()),
        (2, [int32(0), one.clone()].concat()),
    ];
    let cut = [int32s(&[1, 0]), one].concat();
    arguments.extend((0..cut.len()).map(|length| (1, cut[..length].to_vec())));
    arguments
}

#[cfg(test)]
mod tests {
    use super::*;
    use std::collections::BTreeSet;

    /// Worked out from 003's productions by hand.
    #[test]
    fn lines() {
        let line =
            |version, bytes: Vec<u8>| StoredValue { version, kind: Kind::Value, bytes }.line();
        let (text, name, label, id, c) = ("0 0", "0 0", "0 0", "0 0", "0 0");
        // 01 58, the format at 2, the double at 6
        let expected = format!(
            "value 0 0 16 2 1 337922 4611686018427387904 0 0 {text} {name} {label} {id} {c} 0 0"
        );
        assert_eq!(line(3, [vec![0; 2], number(NO_MODIFIER, 2.0)].concat()), expected);
        // 02 58, 12 bytes, a name of 3 letters at 18, a label of 5 at 25, show
        let expected = format!(
            "value 0 0 31 0 2 329728 4611686018427387904 3 0 {text} 18 3 25 5 {id} {c} 0 0"
        );
        assert_eq!(line(1, labelled(NO_MODIFIER, b"label", 3)), expected);
        // 04 58, the format, a label of 5 letters at 10, a name of 8 at 19, show, a string of 2
        let expected = format!("value 0 0 34 0 4 67584 0 1 0 32 2 19 8 10 5 {id} {c} 0 0");
        assert_eq!(line(3, value_string(NO_MODIFIER, b"label", 1)), expected);
        // 05 58, a name of 3 letters at 6, no label at 13, show
        let expected = format!("value 0 0 14 0 5 0 0 2 0 {text} 6 3 13 0 {id} {c} 0 0");
        assert_eq!(line(3, variable(NO_MODIFIER, b"", 2)), expected);
        // 03, 10 letters at 5, 58, 2 letters at 20, 4 at 26, fixed
        let bytes = [&[3], &super::text(NO_MODIFIER)[..], &[1]].concat();
        assert_eq!(
            line(3, bytes),
            format!("value 0 0 31 0 3 0 0 0 1 5 10 {name} {label} 20 2 26 4 0 0")
        );
        // 58, 6 letters at 5, two arguments from 15 on
        let argument = [int32(0), number(NO_MODIFIER, 1.0)].concat();
        let bytes = template(NO_MODIFIER, &[argument.clone(), argument]);
        let expected = format!("value 0 0 51 0 7 0 0 0 0 5 6 {name} {label} {id} {c} 2 15");
        assert_eq!(line(3, bytes), expected);
        let zeros = [vec![0; 5], number(NO_MODIFIER, 2.0)].concat();
        assert!(line(3, zeros.clone()).starts_with("value 3 4 0 0 0 0"));
        assert!(line(1, zeros).starts_with("value 0 0 19 5 1 "));
    }

    #[test]
    fn lines_of_arguments() {
        let line = |bytes| StoredValue { version: 3, kind: Kind::Argument, bytes }.line();
        let one = number(NO_MODIFIER, 1.0);
        assert_eq!(line([int32(0), one.clone()].concat()), "argument 0 0 18 1 4");
        assert_eq!(line([int32s(&[2, 0]), one.repeat(3)].concat()), "argument 0 0 36 2 8");
        assert_eq!(line([int32s(&[2, 1]), one].concat()), "argument 3 4 0 0 0");
    }

    #[test]
    fn the_input_fits() {
        let values = stored_values();
        assert!(input().len() <= 65_536 && values.len() <= 4_096);
        assert!(values.iter().all(|value| value.bytes.len() <= 65_535));
    }

    /// Every form is among the accepted ones, and every refusal but the one for the length.
    #[test]
    fn all_is_there() {
        let number = |line: &str, word: usize| -> u32 {
            line.split(' ').nth(word).and_then(|word| word.parse().ok()).expect("a number")
        };
        for version in [1, 3] {
            let values = stored_values();
            let lines = |kind| {
                let of_kind = |value: &&StoredValue| value.version == version && value.kind == kind;
                values.iter().filter(of_kind).map(StoredValue::line).collect::<Vec<_>>()
            };
            let forms: BTreeSet<u32> =
                lines(Kind::Value).iter().map(|line| number(line, 5)).collect();
            assert_eq!(forms, (0..=7).collect());
        }
        let refusals: BTreeSet<u32> = output().lines().map(|line| number(line, 1)).collect();
        assert_eq!(refusals, BTreeSet::from([0, 2, 3, 4, 5, 6, 7, 18]));
    }
}
