//! The encodings of texts, and texts as they are shown.

use digarumbi::codepage::Page;

#[derive(Clone, Copy, Debug, PartialEq, Eq)]
pub enum Encoding {
    Utf8,
    Page(Page),
}

impl Encoding {
    /// By a name such as `1250`, `windows-1250`, `cp1250` or `utf-8`, small or capital.
    pub fn named(name: &str) -> Option<Encoding> {
        let name = name.to_ascii_lowercase();
        let number = name.strip_prefix("windows-").or(name.strip_prefix("cp")).unwrap_or(&name);
        match number {
            "utf-8" | "utf8" => Some(Encoding::Utf8),
            _ => number
                .parse()
                .ok()
                .and_then(|number: u32| Page::try_from(number).ok())
                .map(Encoding::Page),
        }
    }

    /// What a charset says, or else the suffix of a locale such as `pl_PL.windows-1250`.
    pub fn declared(charset: &[u8], locale: &[u8]) -> Option<Encoding> {
        let suffix = locale.rsplit(|&byte| byte == b'.').next().unwrap_or_default();
        let named = |name| std::str::from_utf8(name).ok().and_then(Encoding::named);
        if charset.is_empty() {
            named(suffix)
        } else {
            named(charset)
        }
    }

    /// A text as it is shown: on one line, with a backslash before what is not shown as it is.
    pub fn show(self, bytes: &[u8]) -> String {
        match self {
            Encoding::Utf8 => show_utf8(bytes),
            Encoding::Page(page) => match page.decode(bytes) {
                Ok(text) => escaped(&text),
                Err(_) => show_byte_by_byte(page, bytes),
            },
        }
    }
}

/// Bytes that are not UTF-8 are shown by their numbers.
pub fn show_utf8(bytes: &[u8]) -> String {
    let mut shown = String::with_capacity(bytes.len());
    for chunk in bytes.utf8_chunks() {
        push_escaped(&mut shown, chunk.valid());
        push_bytes(&mut shown, chunk.invalid());
    }
    shown
}

fn show_byte_by_byte(page: Page, bytes: &[u8]) -> String {
    let mut shown = String::new();
    for byte in bytes.chunks(1) {
        match page.decode(byte) {
            Ok(text) => push_escaped(&mut shown, &text),
            Err(_) => push_bytes(&mut shown, byte),
        }
    }
    shown
}

fn escaped(text: &str) -> String {
    let mut shown = String::with_capacity(text.len());
    push_escaped(&mut shown, text);
    shown
}

fn push_escaped(shown: &mut String, text: &str) {
    for character in text.chars() {
        match character {
            '\\' => shown.push_str("\\\\"),
            '\t' => shown.push_str("\\t"),
            '\n' => shown.push_str("\\n"),
            '\r' => shown.push_str("\\r"),
            _ if character.is_control() => {
                push_bytes(shown, character.encode_utf8(&mut [0; 4]).as_bytes());
            }
            _ => shown.push(character),
        }
    }
}

fn push_bytes(shown: &mut String, bytes: &[u8]) {
    for byte in bytes {
        shown.push_str(&format!("\\x{byte:02x}"));
    }
}

#[cfg(test)]
mod tests {
    use super::*;

    #[test]
    fn names() {
        let page = |page| Some(Encoding::Page(page));
        assert_eq!(Encoding::named("1250"), page(Page::Windows1250));
        assert_eq!(Encoding::named("Windows-1251"), page(Page::Windows1251));
        assert_eq!(Encoding::named("cp1252"), page(Page::Windows1252));
        assert_eq!(Encoding::named("UTF-8"), Some(Encoding::Utf8));
        assert_eq!(Encoding::named("1253"), None);
        assert_eq!(Encoding::named("ISO_8859-1:1987"), None);
    }

    #[test]
    fn the_charset_comes_before_the_locale() {
        let declared = Encoding::declared;
        assert_eq!(declared(b"UTF-8", b"pl_PL.windows-1250"), Some(Encoding::Utf8));
        let page = Some(Encoding::Page(Page::Windows1250));
        assert_eq!(declared(b"", b"pl_PL.windows-1250"), page);
        assert_eq!(declared(b"ISO_8859-1:1987", b"pl_PL.windows-1250"), None);
        assert_eq!(declared(b"", b"\xff"), None);
    }

    #[test]
    fn shown() {
        assert_eq!(Encoding::Utf8.show("Łódź".as_bytes()), "Łódź");
        assert_eq!(Encoding::Utf8.show(b"a\xa3\\\t\x07"), "a\\xa3\\\\\\t\\x07");
        assert_eq!(Encoding::Utf8.show("\u{85}".as_bytes()), "\\xc2\\x85");
        let page = Encoding::Page(Page::Windows1250);
        assert_eq!(page.show(b"\xa3\xf3d\x9f"), "Łódź");
        assert_eq!(page.show(b"\xa3\x81\n"), "Ł\\x81\\n");
    }
}
