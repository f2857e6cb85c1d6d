//! JSON objects and lists, written on one line.

use std::fmt::{Display, Write};

/// An object that is being written.
pub struct Object(String);

impl Object {
    pub fn new() -> Object {
        Object("{".into())
    }

    fn key(&mut self, key: &str) {
        if self.0.len() > 1 {
            self.0.push(',');
        }
        push_text(&mut self.0, key);
        self.0.push(':');
    }

    /// A number, a bool, null, or a list or object that is written already.
    pub fn plain(mut self, key: &str, value: impl Display) -> Object {
        self.key(key);
        write!(self.0, "{value}").expect("a string takes it");
        self
    }

    pub fn text(mut self, key: &str, value: &str) -> Object {
        self.key(key);
        push_text(&mut self.0, value);
        self
    }

    /// A double. Those that JSON has no number for are texts.
    pub fn double(self, key: &str, x: f64) -> Object {
        let shortest = crate::number::shortest(x);
        if x.is_finite() {
            self.plain(key, shortest)
        } else {
            self.text(key, &shortest)
        }
    }

    pub fn texts<'t>(self, key: &str, texts: impl IntoIterator<Item = &'t str>) -> Object {
        self.plain(key, list(texts.into_iter().map(text)))
    }

    pub fn end(mut self) -> String {
        self.0.push('}');
        self.0
    }
}

pub fn list(items: impl IntoIterator<Item = String>) -> String {
    format!("[{}]", items.into_iter().collect::<Vec<_>>().join(","))
}

pub fn text(value: &str) -> String {
    let mut json = String::with_capacity(value.len() + 2);
    push_text(&mut json, value);
    json
}

/// Texts that are shown have no control characters.
fn push_text(json: &mut String, value: &str) {
    json.push('"');
    for character in value.chars() {
        match character {
            '"' | '\\' => json.extend(['\\', character]),
            _ if character < ' ' => {
                write!(json, "\\u{:04x}", character as u32).expect("a string takes it");
            }
            _ => json.push(character),
        }
    }
    json.push('"');
}

#[cfg(test)]
mod tests {
    use super::*;

    #[test]
    fn objects() {
        let object = Object::new().text("a", "x\"\\\n").plain("b", 7).double("c", f64::NAN);
        let object = object.texts("d", ["p", "q"]);
        assert_eq!(object.end(), r#"{"a":"x\"\\\u000a","b":7,"c":"NaN","d":["p","q"]}"#);
    }
}
