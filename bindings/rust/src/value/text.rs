//! A readable text of a Value. It is for display, and not part of the proved library.

use std::borrow::Cow;
use std::fmt;

use super::Value;

impl fmt::Display for Value<'_> {
    fn fmt(&self, f: &mut fmt::Formatter) -> fmt::Result {
        f.pad(&text(self))
    }
}

fn text<'a>(value: &Value<'a>) -> Cow<'a, str> {
    match *value {
        Value::Number { .. } => number_text(value),
        Value::LabelledNumber { value_label, show, .. } => {
            labelled(number_text(value), value_label, show)
        }
        Value::String { s, value_label, show, .. } => labelled(lossy(s), value_label, show),
        Value::Variable { var_name, var_label, show } => labelled(lossy(var_name), var_label, show),
        Value::Text { local, .. } | Value::FixedText { local, .. } => lossy(local),
        Value::Template { template, .. } => lossy(template),
    }
}

fn lossy(bytes: &[u8]) -> Cow<'_, str> {
    String::from_utf8_lossy(bytes)
}

/// A value or name and its label, separated by a space where both are shown (003, Value and
/// Formats: `show`, `show-variables`, `show-values`).
fn labelled<'a>(value: Cow<'a, str>, label: &'a [u8], show: u8) -> Cow<'a, str> {
    match show {
        1 => value,
        _ if label.is_empty() => value,
        3 => format!("{value} {}", lossy(label)).into(),
        _ => lossy(label),
    }
}

/// The system-missing value is a full stop (003, X0: `missing`).
fn number_text(value: &Value) -> Cow<'static, str> {
    if value.is_missing() {
        return ".".into();
    }
    match value.number() {
        None => "NaN".into(),
        Some(x) if x == 0.0 || (1e-5..1e15).contains(&x.abs()) => x.to_string().into(),
        Some(x) => format!("{x:e}").into(),
    }
}

#[cfg(test)]
mod tests {
    use super::*;

    fn number(x: f64) -> String {
        Value::Number { format: 0, bits: x.to_bits() }.to_string()
    }

    #[test]
    fn numbers() {
        assert_eq!(number(2.5), "2.5");
        assert_eq!(number(-0.0), "-0");
        assert_eq!(number(1e300), "1e300");
        assert_eq!(number(f64::MIN), ".");
        assert_eq!(number(f64::NEG_INFINITY), "-inf");
        assert_eq!(number(f64::NAN), "NaN");
    }

    #[test]
    fn labelled_numbers() {
        let text = |x: f64, value_label, show| {
            let (format, bits) = (0, x.to_bits());
            Value::LabelledNumber { format, bits, var_name: b"v", value_label, show }.to_string()
        };
        let shown = [0, 1, 2, 3, 9].map(|show| text(7.0, b"seven", show));
        assert_eq!(shown, ["seven", "7", "seven", "7 seven", "seven"]);
        assert_eq!([0, 1, 2, 3, 9].map(|show| text(7.0, b"", show)), ["7"; 5]);
        assert_eq!([1, 2].map(|show| text(f64::MIN, b"none", show)), [".", "none"]);
    }

    #[test]
    fn labelled_strings() {
        let text = |value_label, show| {
            Value::String { format: 0, s: b"f", var_name: b"v", value_label, show }.to_string()
        };
        let shown = [0, 1, 2, 3].map(|show| text(&b"female"[..], show));
        assert_eq!(shown, ["female", "f", "female", "f female"]);
        assert_eq!([0, 1, 2, 3].map(|show| text(&b""[..], show)), ["f"; 4]);
    }

    #[test]
    fn variables() {
        let text =
            |var_label, show| Value::Variable { var_name: b"x", var_label, show }.to_string();
        let shown = [0, 1, 2, 3].map(|show| text(&b"Log"[..], show));
        assert_eq!(shown, ["Log", "x", "Log", "x Log"]);
        assert_eq!([0, 1, 2, 3].map(|show| text(&b""[..], show)), ["x"; 4]);
    }

    #[test]
    fn texts() {
        let text = Value::Text { local: b"No", id: b"no", c: b"n", fixed: true };
        assert_eq!(text.to_string(), "No");
        let text = Value::FixedText { local: b"\xff", id: b"", c: b"" };
        assert_eq!(text.to_string(), "\u{fffd}");
    }
}
