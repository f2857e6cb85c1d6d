//! Values: what a name or a cell says (003, Value).
//!
//! All of it is made of what the library answers; nothing here reads a field of a Value.

mod text;
mod words;

use crate::lent::{self, ARGUMENT_WORDS, VALUE_WORDS};
use crate::Refusal;
use words::Words;

/// A Value as it stands in a member.
#[derive(Clone, Copy, Debug, PartialEq, Eq)]
pub struct ValueBytes<'a> {
    /// The version of the member, 1 or 3.
    pub version: u32,
    pub bytes: &'a [u8],
}

impl<'a> ValueBytes<'a> {
    /// What it says. Nothing is refused of a name or a cell that [`read_member`] gave.
    ///
    /// [`read_member`]: crate::read_member
    pub fn value(&self) -> Result<Value<'a>, Refusal> {
        Value::read(self.version, self.bytes).map(|(value, _)| value)
    }
}

/// What a Value says, one variant for each form. The strings are bytes of the member; in which
/// encoding, the member's Formats say.
///
/// It is shown as a reader of the table sees it: a number or a string by its label where `show`
/// asks for that and there is one; a variable by its label where there is one, unless `show` asks
/// for the name. A `show` of 0 leaves this to the table's default, which is not among what the
/// library answers, and is taken as 2. A missing number is a full stop. A template is its text as
/// it stands, without its arguments.
///
/// ```
/// use digarumbi::Value;
/// let label = |show| Value::LabelledNumber {
///     format: 0,
///     bits: 1f64.to_bits(),
///     var_name: b"sex",
///     value_label: b"female",
///     show,
/// };
/// assert_eq!([1, 2, 3].map(|show| label(show).to_string()), ["1", "female", "1 female"]);
/// ```
#[derive(Clone, Copy, Debug, PartialEq, Eq)]
pub enum Value<'a> {
    /// 01: a number.
    Number { format: u32, bits: u64 },
    /// 02: a number that is a value of a variable.
    LabelledNumber { format: u32, bits: u64, var_name: &'a [u8], value_label: &'a [u8], show: u8 },
    /// 03: a text, `fixed` or from the user.
    Text { local: &'a [u8], id: &'a [u8], c: &'a [u8], fixed: bool },
    /// 04: a string that is a value of a variable.
    String { format: u32, s: &'a [u8], var_name: &'a [u8], value_label: &'a [u8], show: u8 },
    /// 05: a variable.
    Variable { var_name: &'a [u8], var_label: &'a [u8], show: u8 },
    /// 06: a fixed text.
    FixedText { local: &'a [u8], id: &'a [u8], c: &'a [u8] },
    /// A template with its arguments.
    Template { template: &'a [u8], arguments: Arguments<'a> },
}

impl<'a> Value<'a> {
    /// The Value at the start of the bytes, by the version of its member, and the bytes after it.
    ///
    /// ```
    /// use digarumbi::Value;
    /// let bytes = b"\x05X\x01\0\0\0x\x03\0\0\0Log\x02 and more";
    /// let (value, rest) = Value::read(3, bytes)?;
    /// assert_eq!(value, Value::Variable { var_name: b"x", var_label: b"Log", show: 2 });
    /// assert_eq!(rest, b" and more");
    /// assert_eq!(Value::read(3, &bytes[..9]).unwrap_err().to_string(), "refused 2 at 7");
    /// assert_eq!(Value::read(2, bytes).unwrap_err().to_string(), "refused 4 at 0");
    /// # Ok::<(), digarumbi::Refusal>(())
    /// ```
    pub fn read(version: u32, bytes: &'a [u8]) -> Result<(Value<'a>, &'a [u8]), Refusal> {
        let mut answer = [0; VALUE_WORDS];
        lent::value(version, bytes, &mut answer);
        let words = Words::new(version, bytes, &answer)?;
        Ok((words.value(), words.rest()))
    }

    /// The bits of the double of a Value that is a number.
    pub fn bits(&self) -> Option<u64> {
        match *self {
            Value::Number { bits, .. } | Value::LabelledNumber { bits, .. } => Some(bits),
            _ => None,
        }
    }

    /// The number of a Value that is one, as it stands: minus the largest finite double where it
    /// [is missing](Value::is_missing). None for other forms, and where the bits are a NaN's.
    ///
    /// ```
    /// use digarumbi::Value;
    /// let number = |x: f64| Value::Number { format: 0, bits: x.to_bits() };
    /// assert_eq!(number(2.5).number(), Some(2.5));
    /// assert_eq!(number(f64::NAN).number(), None);
    /// assert_eq!(number(f64::MIN).number(), Some(f64::MIN));
    /// assert!(number(f64::MIN).is_missing());
    /// ```
    pub fn number(&self) -> Option<f64> {
        let bits = self.bits()?;
        let (given, number) = lent::number(bits as u32, (bits >> 32) as u32);
        (given == 1).then_some(number)
    }

    /// Whether it is the double that stands for a missing value (003, Value: `-DBL_MAX`).
    pub fn is_missing(&self) -> bool {
        self.bits() == Some(f64::MIN.to_bits())
    }
}

/// The arguments of a template, each with its Values.
///
/// ```
/// use digarumbi::Value;
/// // a template with one argument, which has two Values
/// let text = |letter: u8| [b"\x06\x01\0\0\0", &[letter][..], b"X\0\0\0\0\0\0\0\0"].concat();
/// let start = b"X\x02\0\0\0^1\x01\0\0\0\x02\0\0\0\0\0\0\0";
/// let bytes = [&start[..], &text(b'a'), &text(b'b')].concat();
/// let (value, _) = Value::read(3, &bytes)?;
/// let Value::Template { template: b"^1", arguments } = value else { panic!("a template") };
/// let values: Vec<Vec<String>> =
///     arguments.map(|values| values.map(|value| value.to_string()).collect()).collect();
/// assert_eq!(values, [["a", "b"]]);
/// # Ok::<(), digarumbi::Refusal>(())
/// ```
#[derive(Clone, Copy, Debug, PartialEq, Eq)]
pub struct Arguments<'a>(Run<'a>);

impl<'a> Iterator for Arguments<'a> {
    type Item = Values<'a>;

    fn next(&mut self) -> Option<Values<'a>> {
        let Run { version, bytes, .. } = self.0;
        self.0.next(|| {
            let mut answer = [0; ARGUMENT_WORDS];
            lent::argument(version, bytes, &mut answer);
            let [refusal, _, length, values, first] = answer;
            let (argument, rest) = bytes.split_at_checked(length as usize)?;
            let values = Run { version, bytes: argument.get(first as usize..)?, left: values };
            (refusal == 0).then_some((Values(values), rest))
        })
    }
}

/// The Values of an argument.
#[derive(Clone, Copy, Debug, PartialEq, Eq)]
pub struct Values<'a>(Run<'a>);

impl<'a> Iterator for Values<'a> {
    type Item = Value<'a>;

    fn next(&mut self) -> Option<Value<'a>> {
        let Run { version, bytes, .. } = self.0;
        self.0.next(|| Value::read(version, bytes).ok())
    }
}

/// Bytes of a template of an accepted Value in which so many arguments, or Values, still stand.
#[derive(Clone, Copy, Debug, PartialEq, Eq)]
struct Run<'a> {
    version: u32,
    bytes: &'a [u8],
    left: u32,
}

impl<'a> Run<'a> {
    /// What stands next, if there is one, by `read`, which also gives the bytes after it. Nothing
    /// of an accepted Value is refused; a run would end there.
    fn next<T>(&mut self, read: impl FnOnce() -> Option<(T, &'a [u8])>) -> Option<T> {
        self.left = self.left.checked_sub(1)?;
        let Some((item, rest)) = read() else {
            self.left = 0;
            return None;
        };
        self.bytes = rest;
        Some(item)
    }
}
