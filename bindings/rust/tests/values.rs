//! Values of every form, and the labels of a real member.

use digarumbi::{lent, read_member, Refusal, Value};

fn string(text: &[u8]) -> Vec<u8> {
    [&(text.len() as u32).to_le_bytes()[..], text].concat()
}

fn read(bytes: &[u8]) -> Value<'_> {
    let (value, rest) = Value::read(3, bytes).expect("a Value");
    assert_eq!(rest, b"");
    value
}

fn refusal(version: u32, bytes: &[u8]) -> String {
    Value::read(version, bytes).map_err(|refusal: Refusal| refusal.to_string()).unwrap_err()
}

/// A modifier with one reference, one subscript and no styles.
fn modified() -> Vec<u8> {
    let lists = [&b"\x31\x01\0\0\0\x09\x09\x01\0\0\0"[..], &string(b"a")].concat();
    [lists, string(b"\0\0\0\0\x58\x58")].concat()
}

#[test]
fn numbers() {
    let number = [&7u32.to_le_bytes()[..], &2.5f64.to_le_bytes()].concat();
    let (format, bits) = (7, 2.5f64.to_bits());
    for modifier in [vec![0x58], modified()] {
        let plain = [&[0, 0, 1], &modifier[..], &number].concat();
        assert_eq!(read(&plain), Value::Number { format, bits });
        assert_eq!(read(&plain).number(), Some(2.5));
        let labels = [string(b"v"), string(b"label"), vec![3]].concat();
        let labelled = [&[2], &modifier[..], &number, &labels].concat();
        let (var_name, value_label) = (&b"v"[..], &b"label"[..]);
        let expected = Value::LabelledNumber { format, bits, var_name, value_label, show: 3 };
        assert_eq!(read(&labelled), expected);
        assert_eq!(expected.to_string(), "2.5 label");
    }
}

#[test]
fn texts() {
    for modifier in [vec![0x58], modified()] {
        let text = [string(b"local"), modifier.clone(), string(b"id"), string(b"c")].concat();
        let (local, id, c) = (&b"local"[..], &b"id"[..], &b"c"[..]);
        assert_eq!(read(&[&[6], &text[..]].concat()), Value::FixedText { local, id, c });
        for fixed in [false, true] {
            let bytes = [&[3], &text[..], &[u8::from(fixed)]].concat();
            assert_eq!(read(&bytes), Value::Text { local, id, c, fixed });
            assert_eq!((read(&bytes).number(), read(&bytes).is_missing()), (None, false));
        }
        let labels = [string(b"label"), string(b"v"), vec![1], string(b"s")].concat();
        let bytes = [&[4], &modifier[..], &9u32.to_le_bytes(), &labels].concat();
        let (s, var_name, value_label) = (&b"s"[..], &b"v"[..], &b"label"[..]);
        let expected = Value::String { format: 9, s, var_name, value_label, show: 1 };
        assert_eq!(read(&bytes), expected);
        let bytes = [&[5], &modifier[..], &string(b"v"), &string(b"label"), &[2]].concat();
        let expected = Value::Variable { var_name, var_label: b"label", show: 2 };
        assert_eq!(read(&bytes), expected);
    }
}

/// A template with the text of its depth, and one argument: a text and a template one level down.
fn nested(levels: u8) -> Vec<u8> {
    let start = [vec![0x58], string(&[b'0' + levels])].concat();
    if levels == 1 {
        return [start, vec![0; 4]].concat();
    }
    let text = b"\x06\x01\0\0\0tX\0\0\0\0\0\0\0\0";
    let argument = [&b"\x02\0\0\0\0\0\0\0"[..], text, &nested(levels - 1)].concat();
    [start, vec![1, 0, 0, 0], argument].concat()
}

#[test]
fn arguments_down_to_the_last() {
    let bytes = nested(8);
    let mut value = read(&bytes);
    for levels in (1..=8).rev() {
        let Value::Template { template, mut arguments } = value else { panic!("a template") };
        assert_eq!(template, [b'0' + levels]);
        if levels == 1 {
            assert_eq!(arguments.count(), 0);
            break;
        }
        let values: Vec<Value> = arguments.next().expect("an argument").collect();
        assert_eq!(arguments.next(), None);
        let [text, inner] = values[..] else { panic!("two values") };
        assert_eq!(text.to_string(), "t");
        value = inner;
    }
    // The text in the eighth template is the first Value too deep.
    assert_eq!(refusal(3, &nested(9)), format!("refused 7 at {}", 7 * (10 + 8 + 15) + 10 + 8));
}

/// The bytes after a template are not its own, also where they would do for an argument.
#[test]
fn arguments_end_with_the_value() {
    let bytes = [nested(2), nested(2)].concat();
    let (first, rest) = Value::read(3, &bytes).expect("a Value");
    assert_eq!(first, read(rest));
}

#[test]
fn missing_and_not_a_number() {
    let number = |bits: u64| Value::Number { format: 0, bits };
    assert!(number(0xffef_ffff_ffff_ffff).is_missing());
    assert!(!number(0xffef_ffff_ffff_fffe).is_missing());
    assert!(!number(0x7fef_ffff_ffff_ffff).is_missing());
    for bits in [0x7ff0_0000_0000_0001, 0xfff8_0000_0000_0000, u64::MAX] {
        assert_eq!(number(bits).number(), None);
        assert_eq!(number(bits).bits(), Some(bits));
        assert!(!number(bits).is_missing());
    }
    assert_eq!(number(0xfff0_0000_0000_0000).number(), Some(f64::NEG_INFINITY));
    assert_eq!(number(1 << 63).number().map(f64::to_bits), Some(1 << 63));
}

#[test]
fn versions() {
    let zeros = |number: usize| [vec![0; number], nested(1)].concat();
    assert_eq!(refusal(3, &zeros(5)), "refused 3 at 4");
    assert!(Value::read(1, &zeros(5)).is_ok());
    assert_eq!(refusal(1, &zeros(6)), "refused 3 at 5");
    let modified = [&[5], &modified()[..]].concat();
    assert_eq!(refusal(1, &modified), "refused 4 at 1");
    assert_eq!(refusal(u32::MAX, &zeros(0)), "refused 4 at 0");
}

#[test]
fn answers_that_are_too_short() {
    let mut answer = [7; lent::VALUE_WORDS - 1];
    assert_eq!(lent::value(3, &nested(1), &mut answer), 0);
    assert_eq!(lent::argument(3, &[0; 9], &mut answer[..lent::ARGUMENT_WORDS - 1]), 0);
    assert_eq!(answer, [7; lent::VALUE_WORDS - 1]);
}

/// Three of its cells are codes that have labels.
#[test]
fn labels_of_a_real_member() {
    let member = include_bytes!("../../../examples/spine_1.bin");
    let table = read_member(member).expect("an accepted member");
    let labelled = |value: &Value| matches!(value, Value::LabelledNumber { value_label, .. } if !value_label.is_empty());
    let values: Vec<Value> = table.cells.iter().map(|cell| cell.value().expect("one")).collect();
    let labels: Vec<String> = values.iter().filter(|v| labelled(v)).map(Value::to_string).collect();
    assert_eq!(labels, ["C1", "C1", "T1"]);
    assert_eq!(values.iter().filter(|value| value.is_missing()).count(), 1);
    assert!(values.iter().all(|value| value.number().is_some()));
}
