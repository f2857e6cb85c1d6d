//! Refusals.

use std::error::Error;
use std::fmt;

/// Why an input is refused: document 01's number, and the place in the input.
///
/// ```
/// use digarumbi::Reason;
/// let refusal = digarumbi::read_member(&[]).unwrap_err();
/// assert_eq!(refusal.reason(), Some(Reason::DoesNotFit));
/// assert_eq!(refusal.to_string(), "refused 2 at 0");
/// assert_eq!(refusal.text(), "a field doesn't fit in the input or its region");
/// ```
#[derive(Clone, Copy, Debug, PartialEq, Eq)]
pub struct Refusal {
    pub number: u32,
    pub place: u32,
    /// Number of nodes of the member, with 12 and 13 only.
    pub nodes: u32,
    /// Number of cells of the member, with 12 and 13 only.
    pub cells: u32,
}

impl Refusal {
    pub(crate) fn new(number: u32, place: u32) -> Refusal {
        Refusal { number, place, nodes: 0, cells: 0 }
    }

    /// What the number says. None if it is not a refusal's.
    pub fn reason(&self) -> Option<Reason> {
        Reason::of(self.number)
    }

    /// The words of the number.
    pub fn text(&self) -> &'static str {
        refusal_text(self.number)
    }
}

/// `refused 2 at 0`
impl fmt::Display for Refusal {
    fn fmt(&self, f: &mut fmt::Formatter) -> fmt::Result {
        write!(f, "refused {} at {}", self.number, self.place)
    }
}

/// Its source is the [`Reason`], which has the words.
impl Error for Refusal {
    fn source(&self) -> Option<&(dyn Error + 'static)> {
        let reason = Reason::ALL.iter().find(|reason| reason.number() == self.number)?;
        Some(reason)
    }
}

/// The refusal numbers of documents 01 and 02, by what they say. More may come; 16 was withdrawn, and
/// it, 17, 27 and 28 are nobody's.
#[derive(Clone, Copy, Debug, PartialEq, Eq, Hash)]
#[non_exhaustive]
#[repr(u32)]
pub enum Reason {
    TooLong = 1,
    DoesNotFit = 2,
    FixedDiffers = 3,
    Version = 4,
    NotBool = 5,
    RegionNotFilled = 6,
    Limit = 7,
    LeafIndex = 8,
    Axes = 9,
    CellIndex = 10,
    BytesLeft = 11,
    NodeArea = 12,
    CellArea = 13,
    Color = 14,
    OutputTooShort = 15,
    ZeroByte = 18,
    NoSuchLeaf = 19,
    NoCount = 20,
    CaseState = 21,
    CaseCode = 22,
    CaseEnd = 23,
    UnknownPage = 24,
    NoCharacter = 25,
    BadList = 26,
    NoMeaning = 29,
}

impl Reason {
    /// All of them, by their numbers.
    pub const ALL: &'static [Reason] = &[
        Reason::TooLong,
        Reason::DoesNotFit,
        Reason::FixedDiffers,
        Reason::Version,
        Reason::NotBool,
        Reason::RegionNotFilled,
        Reason::Limit,
        Reason::LeafIndex,
        Reason::Axes,
        Reason::CellIndex,
        Reason::BytesLeft,
        Reason::NodeArea,
        Reason::CellArea,
        Reason::Color,
        Reason::OutputTooShort,
        Reason::ZeroByte,
        Reason::NoSuchLeaf,
        Reason::NoCount,
        Reason::CaseState,
        Reason::CaseCode,
        Reason::CaseEnd,
        Reason::UnknownPage,
        Reason::NoCharacter,
        Reason::BadList,
        Reason::NoMeaning,
    ];

    /// The reason with this number, if there is one.
    ///
    /// ```
    /// use digarumbi::Reason;
    /// assert_eq!(Reason::of(10), Some(Reason::CellIndex));
    /// assert_eq!(Reason::of(16), None);
    /// ```
    pub fn of(number: u32) -> Option<Reason> {
        Reason::ALL.iter().copied().find(|reason| reason.number() == number)
    }

    pub fn number(self) -> u32 {
        self as u32
    }

    /// Document 01's words.
    pub fn text(self) -> &'static str {
        match self {
            Reason::TooLong => "member too long",
            Reason::DoesNotFit => "a field doesn't fit in the input or its region",
            Reason::FixedDiffers => "a fixed byte, fixed number, mark or area index differs",
            Reason::Version => {
                "a version that isn't read, or in version 1 a value's modifier that begins 31"
            }
            Reason::NotBool => "a bool neither 0 nor 1",
            Reason::RegionNotFilled => "a region's content ends early",
            Reason::Limit => "a limit passed",
            Reason::LeafIndex => "leaf index not below n, or seen before in this dimension",
            Reason::Axes => "axis counts don't add up, or an entry is no dimension or is repeated",
            Reason::CellIndex => "cell index not below the product, or seen before",
            Reason::BytesLeft => "bytes left at the end",
            Reason::NodeArea => "node area shorter than 7 words a node",
            Reason::CellArea => "cell area shorter than 3 words a cell",
            Reason::Color => "a color's high byte not 0",
            Reason::OutputTooShort => "output too short",
            Reason::ZeroByte => "a zero byte inside a string",
            Reason::NoSuchLeaf => "a dimension or leaf that isn't there",
            Reason::NoCount => "a number under the leaf that is no count",
            Reason::CaseState => "a bad kind list or bias, or words that are no state",
            Reason::CaseCode => "a code that its element can't have",
            Reason::CaseEnd => "the end too soon",
            Reason::UnknownPage => "an unknown page",
            Reason::NoCharacter => {
                "a byte without an entry in the page, or a character that has none or isn't UTF-8 in its shortest form"
            }
            Reason::BadList => "a list of more than 64 members, or of an odd number of words",
            Reason::NoMeaning => {
                "a drawn separator whose style and width have no meaning, or an alignment that has none"
            }
        }
    }
}

/// The text.
impl fmt::Display for Reason {
    fn fmt(&self, f: &mut fmt::Formatter) -> fmt::Result {
        f.pad(self.text())
    }
}

impl Error for Reason {}

/// What a refusal number says, in one line; also of 0 and of one that is no refusal's.
///
/// ```
/// assert_eq!(digarumbi::refusal_text(11), "bytes left at the end");
/// assert_eq!(digarumbi::refusal_text(0), "no refusal");
/// assert_eq!(digarumbi::refusal_text(17), "no such refusal number");
/// ```
pub fn refusal_text(number: u32) -> &'static str {
    match (number, Reason::of(number)) {
        (_, Some(reason)) => reason.text(),
        (0, None) => "no refusal",
        _ => "no such refusal number",
    }
}
