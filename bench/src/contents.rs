//! What a Value says: its form and its fields, strings by their places in the bytes given.

use crate::cursor::{Cursor, Span};
use crate::limits::MEMBER_BYTES;
use crate::refusal::*;
use crate::value::{argument, long_value_mod, value_at_depth, value_mod};
use crate::version::Version;

/// A Value that stands at the start of some bytes.
#[derive(Clone, Copy, Debug, PartialEq, Eq)]
pub struct Contents {
    pub length: usize,
    /// Leading zero bytes.
    pub zeros: usize,
    pub form: Form,
}

#[derive(Clone, Copy, Debug, PartialEq, Eq)]
pub enum Form {
    Number(Number),
    LabelledNumber { number: Number, var_name: Span, value_label: Span, show: u8 },
    Text { text: Text, fixed: bool },
    String { format: u32, value_label: Span, var_name: Span, show: u8, s: Span },
    Variable { var_name: Span, var_label: Span, show: u8 },
    FixedText(Text),
    Template { template: Span, arguments: u32, first: usize },
}

#[derive(Clone, Copy, Debug, PartialEq, Eq)]
pub struct Number {
    pub format: u32,
    pub bits: u64,
}

#[derive(Clone, Copy, Debug, PartialEq, Eq)]
pub struct Text {
    pub local: Span,
    pub id: Span,
    pub c: Span,
}

/// An Argument that stands at the start of some bytes.
#[derive(Clone, Copy, Debug, PartialEq, Eq)]
pub struct ArgumentContents {
    pub length: usize,
    pub values: u32,
    /// Where the first of them starts.
    pub first: usize,
}

/// The Value at the start of the bytes, of a member of this version.
pub fn contents(version: u32, bytes: &[u8]) -> Result<Contents, Refusal> {
    let version = start(version, bytes)?;
    let mut cursor = Cursor::after_zeros(bytes, version.cell_zeros());
    let zeros = cursor.place();
    let form = form(&mut cursor, version)?;
    Ok(Contents { length: cursor.place(), zeros, form })
}

/// The Argument at the start of the bytes; it stands in a template that is not part of another.
pub fn argument_contents(version: u32, bytes: &[u8]) -> Result<ArgumentContents, Refusal> {
    let version = start(version, bytes)?;
    let mut cursor = Cursor::new(bytes);
    let number = cursor.int32()?;
    if number > 0 {
        cursor.fixed_int32(0)?;
    }
    let (values, first) = (number.max(1), cursor.place());
    for _ in 0..values {
        value_at_depth(&mut cursor, version, 2)?;
    }
    Ok(ArgumentContents { length: cursor.place(), values, first })
}

/// The double of an accepted cell's Value that is a number, without a look at what follows it.
pub(crate) fn cell_number(version: Version, value: &[u8]) -> Option<u64> {
    let mut cursor = Cursor::after_zeros(value, version.cell_zeros());
    match cursor.byte() {
        Ok(0x01 | 0x02) => number(&mut cursor, version).ok().map(|number| number.bits),
        _ => None,
    }
}

/// The version with this number, where the bytes are not too many.
fn start(version: u32, bytes: &[u8]) -> Result<Version, Refusal> {
    refuse_if(bytes.len() > MEMBER_BYTES, TOO_LONG, 0)?;
    Version::from_number(version).ok_or(Refusal::new(VERSION, 0))
}

fn form(cursor: &mut Cursor, version: Version) -> Result<Form, Refusal> {
    let place = cursor.place();
    match cursor.byte()? {
        0x01 => Ok(Form::Number(number(cursor, version)?)),
        0x02 => Ok(Form::LabelledNumber {
            number: number(cursor, version)?,
            var_name: cursor.string()?,
            value_label: cursor.string()?,
            show: cursor.byte()?,
        }),
        0x03 => Ok(Form::Text { text: text(cursor, version)?, fixed: cursor.bool()? }),
        0x04 => {
            value_mod(cursor, version)?;
            Ok(Form::String {
                format: cursor.int32()?,
                value_label: cursor.string()?,
                var_name: cursor.string()?,
                show: cursor.byte()?,
                s: cursor.string()?,
            })
        }
        0x05 => {
            value_mod(cursor, version)?;
            let (var_name, var_label) = (cursor.string()?, cursor.string()?);
            Ok(Form::Variable { var_name, var_label, show: cursor.byte()? })
        }
        0x06 => Ok(Form::FixedText(text(cursor, version)?)),
        0x31 => {
            long_value_mod(cursor, version, place)?;
            template(cursor, version)
        }
        0x58 => template(cursor, version),
        _ => Err(Refusal::new(FIXED_DIFFERS, place)),
    }
}

fn number(cursor: &mut Cursor, version: Version) -> Result<Number, Refusal> {
    value_mod(cursor, version)?;
    Ok(Number { format: cursor.int32()?, bits: cursor.double()? })
}

fn text(cursor: &mut Cursor, version: Version) -> Result<Text, Refusal> {
    let local = cursor.string()?;
    value_mod(cursor, version)?;
    Ok(Text { local, id: cursor.string()?, c: cursor.string()? })
}

fn template(cursor: &mut Cursor, version: Version) -> Result<Form, Refusal> {
    let (template, arguments) = (cursor.string()?, cursor.int32()?);
    let first = cursor.place();
    for _ in 0..arguments {
        argument(cursor, version, 1)?;
    }
    Ok(Form::Template { template, arguments, first })
}

#[cfg(test)]
mod tests {
    use super::*;
    use crate::encode::{int32, int32s, list, string};

    fn span(place: usize, length: usize) -> Span {
        Span { place, length }
    }

    fn refused<T: std::fmt::Debug>(result: Result<T, Refusal>) -> (u32, usize) {
        let refusal = result.unwrap_err();
        (refusal.number, refusal.place)
    }

    #[test]
    fn a_number_after_zeros() {
        let bytes = [vec![0, 0, 1, 0x58], int32(9), 2.5f64.to_le_bytes().to_vec(), vec![7]];
        let form = Form::Number(Number { format: 9, bits: 2.5f64.to_bits() });
        assert_eq!(contents(3, &bytes.concat()), Ok(Contents { length: 16, zeros: 2, form }));
    }

    #[test]
    fn a_string_has_its_label_before_the_variable() {
        let start = [vec![4, 0x58], int32(9), string(b"label"), string(b"v")].concat();
        let bytes = [start, vec![3], string(b"s")].concat();
        let (value_label, var_name, s) = (span(10, 5), span(19, 1), span(25, 1));
        let form = Form::String { format: 9, value_label, var_name, show: 3, s };
        assert_eq!(contents(3, &bytes), Ok(Contents { length: 26, zeros: 0, form }));
    }

    #[test]
    fn arguments() {
        let template = [vec![0x58], string(b""), list(&[])].concat();
        let two = [int32s(&[2, 0]), template.clone(), template.clone()].concat();
        let one = [int32(0), template].concat();
        let bytes = [vec![0x58], string(b"ab"), list(&[two.clone(), one.clone()])].concat();
        let form = Form::Template { template: span(5, 2), arguments: 2, first: 11 };
        assert_eq!(contents(1, &bytes), Ok(Contents { length: bytes.len(), zeros: 0, form }));
        let expected = ArgumentContents { length: 26, values: 2, first: 8 };
        assert_eq!(argument_contents(1, &bytes[11..]), Ok(expected));
        let expected = ArgumentContents { length: 13, values: 1, first: 4 };
        assert_eq!(argument_contents(3, &one), Ok(expected));
    }

    #[test]
    fn zeros_by_version() {
        let bytes = [vec![0; 5], vec![0x58; 1], int32s(&[0, 0])].concat();
        assert_eq!(contents(1, &bytes).map(|contents| contents.zeros), Ok(5));
        assert_eq!(refused(contents(3, &bytes)), (3, 4));
        assert_eq!(refused(contents(2, &bytes)), (4, 0));
    }

    #[test]
    fn the_length_is_refused_before_the_version() {
        let long = vec![0; MEMBER_BYTES + 1];
        assert_eq!(refused(contents(2, &long)), (1, 0));
        assert_eq!(refused(argument_contents(2, &long)), (1, 0));
        assert_eq!(refused(argument_contents(2, &long[1..])), (4, 0));
    }

    /// Templates with one argument each, `depth` of them one inside the other.
    fn nested(depth: usize) -> Vec<u8> {
        let level = [vec![0x58], string(b""), int32s(&[1, 0])].concat();
        [level.repeat(depth - 1), vec![0x58], int32s(&[0, 0])].concat()
    }

    #[test]
    fn depths() {
        assert!(contents(3, &nested(8)).is_ok());
        assert_eq!(refused(contents(3, &nested(9))), (7, 8 * 13));
        let argument = |depth| [int32(0), nested(depth)].concat();
        assert!(argument_contents(3, &argument(7)).is_ok());
        assert_eq!(refused(argument_contents(3, &argument(8))), (7, 4 + 7 * 13));
    }
}
