//! The texts of a member, as a reader of the table sees them.

use std::cell::OnceCell;

use digarumbi::{Value, ValueBytes};

use crate::encoding::Encoding;
use crate::number::shortest;
use crate::template::expand;
use crate::walk::{walk, Kept};

/// Shows the texts of one member.
pub struct Texts<'a> {
    member: &'a [u8],
    /// The encoding that was asked for.
    asked: Option<Encoding>,
    /// Read when a text needs it.
    kept: OnceCell<Kept>,
}

impl<'a> Texts<'a> {
    pub fn new(member: &'a [u8], asked: Option<Encoding>) -> Texts<'a> {
        Texts { member, asked, kept: OnceCell::new() }
    }

    /// The fields that the library does not give, as far as the member can be read.
    fn kept(&self) -> &Kept {
        self.kept.get_or_init(|| walk(self.member).kept)
    }

    fn encoding(&self) -> Encoding {
        let declared = || {
            let kept = self.kept();
            let locale = kept.locale.of(self.member);
            Encoding::declared(kept.charset_bytes(self.member), locale)
        };
        self.asked.or_else(declared).unwrap_or(Encoding::Utf8)
    }

    /// Bytes of the member as they are shown.
    pub fn show(&self, bytes: &[u8]) -> String {
        // all encodings have the same ASCII
        let encoding = if bytes.is_ascii() { Encoding::Utf8 } else { self.encoding() };
        encoding.show(bytes)
    }

    /// What a Value says.
    pub fn value(&self, value: &Value) -> String {
        self.show(&self.words(value))
    }

    /// What a Value says that stands in these bytes.
    pub fn value_of(&self, bytes: &ValueBytes) -> String {
        bytes.value().map(|value| self.value(&value)).unwrap_or_default()
    }

    /// The title of the table.
    pub fn title(&self, version: u32) -> String {
        let bytes = self.kept().title.of(self.member);
        self.value_of(&ValueBytes { version, bytes })
    }

    /// What a Value says, in the encoding of the member.
    fn words(&self, value: &Value) -> Vec<u8> {
        match *value {
            Value::Number { .. } => number(value).into_bytes(),
            Value::LabelledNumber { value_label, show, .. } => {
                let show = self.show_values(show, value_label);
                labelled(number(value).as_bytes(), value_label, show)
            }
            Value::String { s, value_label, show, .. } => {
                labelled(s, value_label, self.show_values(show, value_label))
            }
            Value::Variable { var_name, var_label, show } => {
                labelled(var_name, var_label, self.show_variables(show, var_label))
            }
            Value::Text { local, .. } | Value::FixedText { local, .. } => local.to_vec(),
            Value::Template { template, arguments } => {
                let arguments: Vec<Vec<Vec<u8>>> = arguments
                    .map(|values| values.map(|value| self.words(&value)).collect())
                    .collect();
                expand(template, &arguments).unwrap_or_else(|| template.to_vec())
            }
        }
    }

    /// A `show` of 0 leaves it to the table (003, X1).
    fn show_values(&self, show: u8, label: &[u8]) -> u8 {
        match show {
            0 if !label.is_empty() => self.kept().show_values,
            _ => show,
        }
    }

    fn show_variables(&self, show: u8, label: &[u8]) -> u8 {
        match show {
            0 if !label.is_empty() => self.kept().show_variables,
            _ => show,
        }
    }
}

/// The number of a Value, or a full stop where it is missing.
pub fn number(value: &Value) -> String {
    match value.bits() {
        _ if value.is_missing() => ".".into(),
        Some(bits) => shortest(f64::from_bits(bits)),
        None => String::new(),
    }
}

/// A value or name and its label, with a space between where both are shown.
fn labelled(value: &[u8], label: &[u8], show: u8) -> Vec<u8> {
    match show {
        1 => value.to_vec(),
        _ if label.is_empty() => value.to_vec(),
        3 => [value, b" ", label].concat(),
        _ => label.to_vec(),
    }
}
