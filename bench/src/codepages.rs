//! Text in windows-1250, 1251 and 1252, to UTF-8 and back, by the facts in `pages/`.

use std::str;
use std::sync::OnceLock;

use crate::refusal::*;

/// The facts of each page: a line for each byte from 80 to FF, with its code point or `-`.
const FACTS: [(u32, &str); 3] = [
    (1250, include_str!("../pages/cp1250.txt")),
    (1251, include_str!("../pages/cp1251.txt")),
    (1252, include_str!("../pages/cp1252.txt")),
];

/// The numbers of the pages.
pub const PAGES: [u32; 3] = [1250, 1251, 1252];

pub struct Page {
    /// The character of each byte.
    characters: Vec<Option<char>>,
    /// The byte of each code point, up to the last one that has any.
    bytes: Vec<Option<u8>>,
}

impl Page {
    fn read(facts: &str) -> Page {
        let ascii = (0..128).map(|byte: u8| Some(char::from(byte)));
        let characters: Vec<Option<char>> = ascii.chain(facts.lines().map(character)).collect();
        assert_eq!(characters.len(), 256);
        let last = characters.iter().flatten().max().map_or(0, |&last| last as usize);
        let mut bytes = vec![None; last + 1];
        for (byte, character) in characters.iter().enumerate() {
            if let Some(character) = character {
                bytes[*character as usize] = Some(byte as u8);
            }
        }
        Page { characters, bytes }
    }

    /// The page of that number, refused if there is none.
    pub fn of(number: u32) -> Result<&'static Page, Refusal> {
        static READ: OnceLock<Vec<Page>> = OnceLock::new();
        let pages = READ.get_or_init(|| FACTS.iter().map(|(_, facts)| Page::read(facts)).collect());
        let at = FACTS.iter().position(|(page, _)| *page == number);
        at.map(|at| &pages[at]).ok_or(Refusal::new(UNKNOWN_PAGE, 0))
    }

    /// The character of a byte.
    pub fn character(&self, byte: u8) -> Option<char> {
        self.characters[usize::from(byte)]
    }

    /// The byte of a character.
    pub fn byte(&self, character: char) -> Option<u8> {
        self.bytes.get(character as usize).copied().flatten()
    }
}

/// The character of a line such as `80 20AC` or `81 -`.
fn character(line: &str) -> Option<char> {
    let (_, code_point) = line.split_once(' ').expect("a byte and its code point");
    let code_point = u32::from_str_radix(code_point, 16).ok()?;
    Some(char::from_u32(code_point).expect("a scalar value"))
}

/// Text in a page to UTF-8, in `out`. Gives the length.
pub fn to_utf8(page: u32, text: &[u8], out: &mut [u8]) -> Result<usize, Refusal> {
    let page = Page::of(page)?;
    let mut converted = String::with_capacity(3 * text.len());
    for (place, byte) in text.iter().enumerate() {
        converted.push(page.character(*byte).ok_or(Refusal::new(NO_CHARACTER, place))?);
    }
    store(converted.as_bytes(), out)
}

/// UTF-8 to text in a page, in `out`. Gives the length.
pub fn from_utf8(page: u32, text: &[u8], out: &mut [u8]) -> Result<usize, Refusal> {
    let page = Page::of(page)?;
    let valid = match str::from_utf8(text) {
        Ok(valid) => valid,
        Err(error) => str::from_utf8(&text[..error.valid_up_to()]).expect("valid up to there"),
    };
    let mut converted = Vec::with_capacity(valid.len());
    for (place, character) in valid.char_indices() {
        converted.push(page.byte(character).ok_or(Refusal::new(NO_CHARACTER, place))?);
    }
    refuse_if(valid.len() < text.len(), NO_CHARACTER, valid.len())?;
    store(&converted, out)
}

fn store(converted: &[u8], out: &mut [u8]) -> Result<usize, Refusal> {
    refuse_if(out.len() < converted.len(), OUTPUT_TOO_SHORT, 0)?;
    out[..converted.len()].copy_from_slice(converted);
    Ok(converted.len())
}

#[cfg(test)]
mod tests {
    use super::*;

    fn to(page: u32, text: &[u8]) -> Result<Vec<u8>, Refusal> {
        let mut out = vec![0; 3 * text.len()];
        let length = to_utf8(page, text, &mut out)?;
        Ok(out[..length].to_vec())
    }

    fn from(page: u32, text: &[u8]) -> Result<Vec<u8>, Refusal> {
        let mut out = vec![0; text.len()];
        let length = from_utf8(page, text, &mut out)?;
        Ok(out[..length].to_vec())
    }

    #[test]
    fn examples() {
        assert_eq!(to(1250, b"A\xa3\x80\0"), Ok("AŁ€\0".as_bytes().to_vec()));
        assert_eq!(to(1251, b"\xc6\xff"), Ok("Жя".as_bytes().to_vec()));
        assert_eq!(from(1252, "ÿ€".as_bytes()), Ok(b"\xff\x80".to_vec()));
        assert_eq!(to(1252, b"A\x81"), Err(Refusal::new(NO_CHARACTER, 1)));
        assert_eq!(from(1252, b"A\xc4A"), Err(Refusal::new(NO_CHARACTER, 1)));
        assert_eq!(from(1252, "éЖ\u{10302}".as_bytes()), Err(Refusal::new(NO_CHARACTER, 2)));
        assert_eq!(to(1253, b"\x81"), Err(Refusal::new(UNKNOWN_PAGE, 0)));
        assert_eq!(to_utf8(1252, b"\xe9", &mut [0; 1]), Err(Refusal::new(OUTPUT_TOO_SHORT, 0)));
    }

    #[test]
    fn as_many_entries_as_published() {
        for (page, entries) in PAGES.into_iter().zip([251, 255, 251]) {
            let page = Page::of(page).unwrap();
            assert_eq!(page.characters.iter().flatten().count(), entries);
            assert_eq!(page.bytes.iter().flatten().count(), entries);
        }
    }

    #[test]
    fn each_byte_and_back() {
        for page in PAGES {
            for byte in 0..=255 {
                if let Ok(text) = to(page, &[byte]) {
                    assert_eq!(from(page, &text), Ok(vec![byte]));
                }
            }
        }
    }
}
