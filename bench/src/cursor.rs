//! Reads fields one after the other from a run of bytes or a counted region of it.

use crate::refusal::*;

/// A part of the input, by place and length.
#[derive(Clone, Copy, Debug, PartialEq, Eq)]
pub struct Span {
    pub place: usize,
    pub length: usize,
}

/// The next place to read, and where the input or the region ends.
/// Places count from the start of the whole input.
pub struct Cursor<'a> {
    bytes: &'a [u8],
    place: usize,
    end: usize,
}

impl<'a> Cursor<'a> {
    pub fn new(bytes: &'a [u8]) -> Cursor<'a> {
        Cursor { bytes, place: 0, end: bytes.len() }
    }

    /// Behind the zero bytes at the start, `most` at most.
    pub fn after_zeros(bytes: &'a [u8], most: usize) -> Cursor<'a> {
        let place = bytes.iter().take(most).take_while(|&&byte| byte == 0).count();
        Cursor { bytes, place, end: bytes.len() }
    }

    pub fn place(&self) -> usize {
        self.place
    }

    pub fn has_byte(&self) -> bool {
        self.place < self.end
    }

    pub fn span_from(&self, place: usize) -> Span {
        Span { place, length: self.place - place }
    }

    /// The next byte, not consumed.
    pub fn peek(&self) -> Option<u8> {
        self.bytes[self.place..self.end].first().copied()
    }

    /// A field of `length` bytes.
    fn field(&mut self, length: usize) -> Result<&'a [u8], Refusal> {
        refuse_if(length > self.end - self.place, DOES_NOT_FIT, self.place)?;
        let field = &self.bytes[self.place..self.place + length];
        self.place += length;
        Ok(field)
    }

    fn array<const N: usize>(&mut self) -> Result<[u8; N], Refusal> {
        let mut array = [0; N];
        array.copy_from_slice(self.field(N)?);
        Ok(array)
    }

    pub fn byte(&mut self) -> Result<u8, Refusal> {
        Ok(self.array::<1>()?[0])
    }

    /// Three bytes that are one field.
    pub fn three_bytes(&mut self) -> Result<[u8; 3], Refusal> {
        self.array()
    }

    pub fn bool(&mut self) -> Result<bool, Refusal> {
        let place = self.place;
        let byte = self.byte()?;
        refuse_if(byte > 1, NOT_BOOL, place)?;
        Ok(byte == 1)
    }

    pub fn int16(&mut self) -> Result<u16, Refusal> {
        Ok(u16::from_le_bytes(self.array()?))
    }

    pub fn int32(&mut self) -> Result<u32, Refusal> {
        Ok(u32::from_le_bytes(self.array()?))
    }

    pub fn be32(&mut self) -> Result<u32, Refusal> {
        Ok(u32::from_be_bytes(self.array()?))
    }

    pub fn int64(&mut self) -> Result<u64, Refusal> {
        Ok(u64::from_le_bytes(self.array()?))
    }

    /// The bits of a 32-bit floating-point number.
    pub fn float(&mut self) -> Result<u32, Refusal> {
        self.int32()
    }

    /// The bits of a 64-bit floating-point number.
    pub fn double(&mut self) -> Result<u64, Refusal> {
        self.int64()
    }

    pub fn fixed_byte(&mut self, expected: u8) -> Result<(), Refusal> {
        let place = self.place;
        refuse_if(self.byte()? != expected, FIXED_DIFFERS, place)
    }

    /// A run of fixed bytes, each its own field.
    pub fn fixed_bytes(&mut self, expected: &[u8]) -> Result<(), Refusal> {
        expected.iter().try_for_each(|&byte| self.fixed_byte(byte))
    }

    /// A class name: its length, a field of 16 bits, and its letters, the next field.
    pub fn class_name(&mut self, letters: &[u8]) -> Result<(), Refusal> {
        self.fixed_int16(letters.len() as u16)?;
        let place = self.place;
        refuse_if(self.field(letters.len())? != letters, FIXED_DIFFERS, place)
    }

    pub fn fixed_int16(&mut self, expected: u16) -> Result<(), Refusal> {
        let place = self.place;
        refuse_if(self.int16()? != expected, FIXED_DIFFERS, place)
    }

    pub fn fixed_int32(&mut self, expected: u32) -> Result<(), Refusal> {
        let place = self.place;
        refuse_if(self.int32()? != expected, FIXED_DIFFERS, place)
    }

    pub fn fixed_be32(&mut self, expected: u32) -> Result<(), Refusal> {
        let place = self.place;
        refuse_if(self.be32()? != expected, FIXED_DIFFERS, place)
    }

    /// Consumes the next byte if it is `expected`.
    pub fn optional_byte(&mut self, expected: u8) {
        if self.peek() == Some(expected) {
            self.place += 1;
        }
    }

    /// Consumes zero bytes, `most` at most.
    pub fn zero_run(&mut self, most: usize) {
        for _ in 0..most {
            self.optional_byte(0);
        }
    }

    /// A mark: 31 if an optional part follows, 58 if it does not.
    pub fn mark(&mut self) -> Result<bool, Refusal> {
        let place = self.place;
        let byte = self.byte()?;
        refuse_if(byte != 0x31 && byte != 0x58, FIXED_DIFFERS, place)?;
        Ok(byte == 0x31)
    }

    /// A length that is read by `length`, and that many bytes, as one field.
    fn counted(
        &mut self,
        length: impl Fn(&mut Self) -> Result<usize, Refusal>,
    ) -> Result<Span, Refusal> {
        let start = self.place;
        let length = length(self)?;
        let place = self.place;
        if self.field(length).is_err() {
            return Err(Refusal::new(DOES_NOT_FIT, start));
        }
        Ok(Span { place, length })
    }

    fn counted_little(&mut self) -> Result<Span, Refusal> {
        self.counted(|cursor| Ok(cursor.int32()? as usize))
    }

    fn counted_big(&mut self) -> Result<Span, Refusal> {
        self.counted(|cursor| Ok(cursor.be32()? as usize))
    }

    /// A string that started at `start`, if it holds no zero byte.
    fn without_zero(&self, string: Span, start: usize) -> Result<Span, Refusal> {
        let bytes = &self.bytes[string.place..string.place + string.length];
        refuse_if(bytes.iter().fold(false, |zero, &byte| zero | (byte == 0)), ZERO_BYTE, start)?;
        Ok(string)
    }

    pub fn string(&mut self) -> Result<Span, Refusal> {
        let start = self.place;
        let string = self.counted_little()?;
        self.without_zero(string, start)
    }

    pub fn bestring(&mut self) -> Result<Span, Refusal> {
        let start = self.place;
        let string = self.counted_big()?;
        self.without_zero(string, start)
    }

    /// A name whose length is one byte.
    pub fn short_string(&mut self) -> Result<Span, Refusal> {
        self.counted(|cursor| Ok(cursor.byte()? as usize))
    }

    fn region(&self, content: Span) -> Cursor<'a> {
        Cursor { bytes: self.bytes, place: content.place, end: content.place + content.length }
    }

    /// A little-endian count and its region, as one field.
    pub fn count(&mut self) -> Result<Cursor<'a>, Refusal> {
        let content = self.counted_little()?;
        Ok(self.region(content))
    }

    /// A big-endian count and its region, as one field.
    pub fn becount(&mut self) -> Result<Cursor<'a>, Refusal> {
        let content = self.counted_big()?;
        Ok(self.region(content))
    }

    /// The end of a counted region: no byte is left in it.
    pub fn region_end(self) -> Result<(), Refusal> {
        refuse_if(self.has_byte(), REGION_NOT_FILLED, self.place)
    }

    /// The end of the whole input: no byte is left.
    pub fn input_end(self) -> Result<(), Refusal> {
        refuse_if(self.has_byte(), BYTES_LEFT, self.place)
    }
}
