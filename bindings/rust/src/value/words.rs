//! A Value from the words of its answer.

use super::{Arguments, Run, Value};
use crate::lent::VALUE_WORDS;
use crate::Refusal;

/// The answer for a Value that is not refused, and the bytes that it is about.
pub struct Words<'a, 'w> {
    version: u32,
    bytes: &'a [u8],
    words: &'w [u32; VALUE_WORDS],
}

impl<'a, 'w> Words<'a, 'w> {
    pub fn new(
        version: u32,
        bytes: &'a [u8],
        words: &'w [u32; VALUE_WORDS],
    ) -> Result<Words<'a, 'w>, Refusal> {
        match words[0] {
            0 => Ok(Words { version, bytes, words }),
            number => Err(Refusal::new(number, words[1])),
        }
    }

    pub fn value(&self) -> Value<'a> {
        let format = self.words[5];
        let bits = u64::from(self.words[7]) << 32 | u64::from(self.words[6]);
        let show = self.words[8] as u8;
        let [text, name, label, id, c] = [10, 12, 14, 16, 18].map(|first| self.string(first));
        match self.words[4] {
            1 => Value::Number { format, bits },
            2 => Value::LabelledNumber { format, bits, var_name: name, value_label: label, show },
            3 => Value::Text { local: text, id, c, fixed: self.words[9] == 1 },
            4 => Value::String { format, s: text, var_name: name, value_label: label, show },
            5 => Value::Variable { var_name: name, var_label: label, show },
            6 => Value::FixedText { local: text, id, c },
            _ => Value::Template { template: text, arguments: self.arguments() },
        }
    }

    /// The bytes after the Value.
    pub fn rest(&self) -> &'a [u8] {
        self.bytes.get(self.length()..).unwrap_or_default()
    }

    fn length(&self) -> usize {
        self.words[2] as usize
    }

    fn arguments(&self) -> Arguments<'a> {
        let bytes = self.bytes.get(self.words[21] as usize..self.length()).unwrap_or_default();
        Arguments(Run { version: self.version, bytes, left: self.words[20] })
    }

    /// The string whose place and length stand at `first`.
    fn string(&self, first: usize) -> &'a [u8] {
        let (place, length) = (self.words[first] as usize, self.words[first + 1] as usize);
        self.bytes.get(place..place + length).unwrap_or_default()
    }
}
