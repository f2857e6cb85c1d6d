//! Text in windows-1250, 1251 and 1252, to UTF-8 and back.
//!
//! The strings of members and looks are bytes; which page they are in is the caller's to know.
//!
//! ```
//! use digarumbi::codepage::Page;
//! let name = Page::Windows1250.decode(b"\xa3\xf3d\x9f")?;
//! assert_eq!(name, "Łódź");
//! assert_eq!(Page::Windows1250.encode(&name)?, b"\xa3\xf3d\x9f");
//! # Ok::<(), digarumbi::Refusal>(())
//! ```

use crate::lent::{self, TEXT_ANSWER};
use crate::Refusal;

/// A code page.
#[derive(Clone, Copy, Debug, PartialEq, Eq, Hash)]
pub enum Page {
    Windows1250,
    Windows1251,
    Windows1252,
}

/// The most bytes of UTF-8 that a byte of a page becomes.
const MOST_BYTES: usize = 3;

impl Page {
    pub const ALL: [Page; 3] = [Page::Windows1250, Page::Windows1251, Page::Windows1252];

    /// The page's number: 1250, 1251 or 1252.
    pub fn number(self) -> u32 {
        match self {
            Page::Windows1250 => 1250,
            Page::Windows1251 => 1251,
            Page::Windows1252 => 1252,
        }
    }

    /// Text in this page as a string. Refused with 25 at the first byte that has no entry.
    ///
    /// ```
    /// use digarumbi::codepage::Page;
    /// assert_eq!(Page::Windows1252.decode(b"A\x81").unwrap_err().to_string(), "refused 25 at 1");
    /// ```
    pub fn decode(self, text: &[u8]) -> Result<String, Refusal> {
        let mut out = vec![0; MOST_BYTES * text.len()];
        let length = to_utf8(self, text, &mut out)?;
        out.truncate(length);
        Ok(String::from_utf8(out).expect("what is written is UTF-8"))
    }

    /// A string as text in this page. Refused with 25 at the first character that has no byte in it.
    ///
    /// ```
    /// use digarumbi::codepage::Page;
    /// assert_eq!(Page::Windows1251.encode("Жл"), Ok(b"\xc6\xeb".to_vec()));
    /// assert_eq!(Page::Windows1251.encode("Жł").unwrap_err().to_string(), "refused 25 at 2");
    /// ```
    pub fn encode(self, text: &str) -> Result<Vec<u8>, Refusal> {
        let mut out = vec![0; text.len()];
        let length = from_utf8(self, text.as_bytes(), &mut out)?;
        out.truncate(length);
        Ok(out)
    }
}

/// The page of that number. Refused with 24 if there is none.
///
/// ```
/// use digarumbi::codepage::Page;
/// assert_eq!(Page::try_from(1251), Ok(Page::Windows1251));
/// assert_eq!(Page::try_from(1253).unwrap_err().to_string(), "refused 24 at 0");
/// ```
impl TryFrom<u32> for Page {
    type Error = Refusal;

    fn try_from(number: u32) -> Result<Page, Refusal> {
        let page = Page::ALL.into_iter().find(|page| page.number() == number);
        page.ok_or(Refusal::new(24, 0))
    }
}

/// Text in a page to UTF-8, in `out`. Gives the length; after a refusal nothing is written.
///
/// ```
/// use digarumbi::codepage::{to_utf8, Page};
/// let mut out = [7; 4];
/// assert_eq!(to_utf8(Page::Windows1252, b"\x80", &mut out), Ok(3));
/// assert_eq!(out, [0xe2, 0x82, 0xac, 7]);
/// assert_eq!(to_utf8(Page::Windows1252, b"\x80", &mut out[..2]).unwrap_err().number, 15);
/// ```
pub fn to_utf8(page: Page, text: &[u8], out: &mut [u8]) -> Result<usize, Refusal> {
    let mut answer = [0; TEXT_ANSWER];
    lent::to_utf8(page.number(), text, out, &mut answer);
    length(answer)
}

/// UTF-8 to text in a page, in `out`, likewise. The bytes need not be UTF-8.
///
/// ```
/// use digarumbi::codepage::{from_utf8, Page};
/// let mut out = [7; 4];
/// assert_eq!(from_utf8(Page::Windows1252, "€".as_bytes(), &mut out), Ok(1));
/// assert_eq!(out, [0x80, 7, 7, 7]);
/// let overlong = from_utf8(Page::Windows1252, b"A\xc0\xaf", &mut out).unwrap_err();
/// assert_eq!(overlong.to_string(), "refused 25 at 1");
/// ```
pub fn from_utf8(page: Page, text: &[u8], out: &mut [u8]) -> Result<usize, Refusal> {
    let mut answer = [0; TEXT_ANSWER];
    lent::from_utf8(page.number(), text, out, &mut answer);
    length(answer)
}

fn length([number, place, length]: [u32; TEXT_ANSWER]) -> Result<usize, Refusal> {
    match number {
        0 => Ok(length as usize),
        _ => Err(Refusal::new(number, place)),
    }
}
