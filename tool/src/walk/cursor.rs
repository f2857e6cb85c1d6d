//! Reads fields one after the other, and knows the path of productions to the field.

/// A part of the input, by place and length.
#[derive(Clone, Copy, Debug, Default, PartialEq, Eq)]
pub struct Span {
    pub place: usize,
    pub length: usize,
}

impl Span {
    pub fn of<'a>(&self, bytes: &'a [u8]) -> &'a [u8] {
        bytes.get(self.place..self.place + self.length).unwrap_or_default()
    }
}

/// A step of a path: a production or field, one of several, or one of several with its name.
#[derive(Clone, Copy, Debug, PartialEq, Eq)]
pub enum Step {
    Part(&'static str),
    Nth(&'static str, u32),
    Named(&'static str, u32, Span),
}

/// Where reading stopped, and why.
#[derive(Clone, Debug, PartialEq, Eq)]
pub struct Stop {
    pub number: u32,
    pub path: Vec<Step>,
    /// The place of the refusal, and as many bytes as the field has or would have.
    pub field: Span,
    pub expected: String,
    pub found: String,
}

pub type Answer<T> = Result<T, Box<Stop>>;

/// The next place to read, where the input or the region ends, and the path so far.
/// Places count from the start of the whole input.
pub struct Cursor<'a> {
    pub bytes: &'a [u8],
    pub place: usize,
    pub path: Vec<Step>,
    end: usize,
    regions: u32,
}

impl<'a> Cursor<'a> {
    pub fn new(bytes: &'a [u8]) -> Cursor<'a> {
        Cursor { bytes, place: 0, path: Vec::new(), end: bytes.len(), regions: 0 }
    }

    /// Reads something that is a step of the path.
    pub fn inside<T>(
        &mut self,
        step: Step,
        read: impl FnOnce(&mut Self) -> Answer<T>,
    ) -> Answer<T> {
        self.path.push(step);
        let answer = read(self)?;
        self.path.pop();
        Ok(answer)
    }

    /// Reads `count` things of one kind.
    pub fn each(
        &mut self,
        name: &'static str,
        count: u32,
        mut read: impl FnMut(&mut Self) -> Answer<()>,
    ) -> Answer<()> {
        (0..count).try_for_each(|i| self.inside(Step::Nth(name, i), &mut read))
    }

    /// The last step has this name Value from here on.
    pub fn name_step(&mut self, name: Span) {
        if let Some(Step::Nth(what, i)) = self.path.last().copied() {
            self.path.pop();
            self.path.push(Step::Named(what, i, name));
        }
    }

    pub fn has_byte(&self) -> bool {
        self.place < self.end
    }

    pub fn span_from(&self, place: usize) -> Span {
        Span { place, length: self.place - place }
    }

    /// A refusal of a field of the production that is being read.
    pub fn stop(&self, number: u32, name: &'static str, field: Span, said: Said) -> Box<Stop> {
        let mut path = self.path.clone();
        path.push(Step::Part(name));
        let Said { expected, found } = said;
        Box::new(Stop { number, path, field, expected, found })
    }

    /// What is left to read, in words.
    fn left(&self) -> String {
        let left = self.end - self.place;
        let whole = if self.regions == 0 { "the file" } else { "its region" };
        match left {
            0 => format!("the end of {whole}"),
            1 => format!("1 byte left in {whole}"),
            _ => format!("{left} bytes left in {whole}"),
        }
    }

    /// A field of `length` bytes.
    pub fn field(&mut self, name: &'static str, length: usize, what: &str) -> Answer<&'a [u8]> {
        if length > self.end - self.place {
            let field = Span { place: self.place, length };
            let expected =
                if length == 1 { what.into() } else { format!("{what}, {length} bytes") };
            return Err(self.stop(2, name, field, said(expected, self.left())));
        }
        let field = &self.bytes[self.place..self.place + length];
        self.place += length;
        Ok(field)
    }

    fn array<const N: usize>(&mut self, name: &'static str, what: &str) -> Answer<[u8; N]> {
        let mut array = [0; N];
        array.copy_from_slice(self.field(name, N, what)?);
        Ok(array)
    }

    pub fn byte(&mut self, name: &'static str) -> Answer<u8> {
        Ok(self.array::<1>(name, "a byte")?[0])
    }

    pub fn three_bytes(&mut self, name: &'static str) -> Answer<[u8; 3]> {
        self.array(name, "three bytes that say leaf or group")
    }

    pub fn int16(&mut self, name: &'static str) -> Answer<u16> {
        Ok(u16::from_le_bytes(self.array(name, "a 16-bit number")?))
    }

    pub fn int32(&mut self, name: &'static str) -> Answer<u32> {
        Ok(u32::from_le_bytes(self.array(name, "a 32-bit number")?))
    }

    pub fn be32(&mut self, name: &'static str) -> Answer<u32> {
        Ok(u32::from_be_bytes(self.array(name, "a big-endian 32-bit number")?))
    }

    pub fn int64(&mut self, name: &'static str) -> Answer<u64> {
        Ok(u64::from_le_bytes(self.array(name, "a 64-bit number")?))
    }

    pub fn float(&mut self, name: &'static str) -> Answer<[u8; 4]> {
        self.array(name, "a 32-bit float")
    }

    pub fn double(&mut self, name: &'static str) -> Answer<[u8; 8]> {
        self.array(name, "a double")
    }

    /// A byte that `is` one of those expected.
    pub fn tested_byte(
        &mut self,
        name: &'static str,
        number: u32,
        expected: &str,
        is: impl Fn(u8) -> bool,
    ) -> Answer<u8> {
        let place = self.place;
        let byte = self.field(name, 1, expected)?[0];
        if is(byte) {
            return Ok(byte);
        }
        let field = Span { place, length: 1 };
        Err(self.stop(number, name, field, said(expected, format!("{byte:02x}"))))
    }

    pub fn bool(&mut self, name: &'static str) -> Answer<bool> {
        Ok(self.tested_byte(name, 5, "a bool: 00 or 01", |byte| byte <= 1)? == 1)
    }

    pub fn fixed_byte(&mut self, name: &'static str, fixed: u8) -> Answer<()> {
        self.tested_byte(name, 3, &format!("the byte {fixed:02x}"), |byte| byte == fixed)?;
        Ok(())
    }

    /// A mark: 31 if an optional part follows, 58 if it does not.
    pub fn mark(&mut self, name: &'static str) -> Answer<bool> {
        let is_mark = |byte| byte == 0x31 || byte == 0x58;
        Ok(self.tested_byte(name, 3, "a mark: 31 or 58", is_mark)? == 0x31)
    }

    /// The first byte of a Value's form.
    pub fn form(&mut self) -> Answer<u8> {
        let is_form = |byte| matches!(byte, 0x01..=0x06 | 0x31 | 0x58);
        self.tested_byte("form", 3, "the first byte of a Value: 01 to 06, 31 or 58", is_form)
    }

    fn fixed_number(
        &mut self,
        name: &'static str,
        fixed: u32,
        read: impl Fn(&mut Self) -> Answer<u32>,
    ) -> Answer<()> {
        let place = self.place;
        let number = read(self)?;
        if number == fixed {
            return Ok(());
        }
        let field = self.span_from(place);
        let said = said(format!("the number {}", fixed as i32), number.to_string());
        Err(self.stop(3, name, field, said))
    }

    pub fn fixed_int32(&mut self, name: &'static str, fixed: u32) -> Answer<()> {
        self.fixed_number(name, fixed, |cursor| cursor.int32(name))
    }

    pub fn fixed_be32(&mut self, name: &'static str, fixed: u32) -> Answer<()> {
        self.fixed_number(name, fixed, |cursor| cursor.be32(name))
    }

    /// Takes the next byte if it is `expected`.
    pub fn optional_byte(&mut self, expected: u8) {
        if self.has_byte() && self.bytes[self.place] == expected {
            self.place += 1;
        }
    }

    /// A length and that many bytes, as one field.
    fn counted(&mut self, name: &'static str, what: &str, big_endian: bool) -> Answer<Span> {
        let start = self.place;
        let array = self.array(name, what)?;
        let length = if big_endian { u32::from_be_bytes(array) } else { u32::from_le_bytes(array) };
        let length = length as usize;
        let left = self.end - self.place;
        if length > left {
            let said = said(format!("{what} of {length} bytes, as its length says"), self.left());
            let field = Span { place: start, length: 4 + left };
            return Err(self.stop(2, name, field, said));
        }
        let span = Span { place: self.place, length };
        self.place += length;
        Ok(span)
    }

    fn string_of(&mut self, name: &'static str, big_endian: bool) -> Answer<Span> {
        let start = self.place;
        let string = self.counted(name, "a string", big_endian)?;
        let Some(zero) = string.of(self.bytes).iter().position(|&byte| byte == 0) else {
            return Ok(string);
        };
        let found = format!("a zero byte at {}", string.place + zero);
        Err(self.stop(18, name, self.span_from(start), said("a string without a zero byte", found)))
    }

    pub fn string(&mut self, name: &'static str) -> Answer<Span> {
        self.string_of(name, false)
    }

    pub fn bestring(&mut self, name: &'static str) -> Answer<Span> {
        self.string_of(name, true)
    }

    /// A count and the region that it announces, which `read` has to fill.
    fn counted_region<T>(
        &mut self,
        name: &'static str,
        big_endian: bool,
        read: impl FnOnce(&mut Self) -> Answer<T>,
    ) -> Answer<T> {
        let region = self.counted(name, "a region", big_endian)?;
        let outer = (self.end, self.regions);
        self.place = region.place;
        (self.end, self.regions) = (region.place + region.length, self.regions + 1);
        let answer = self.inside(Step::Part(name), |cursor| {
            let answer = read(cursor)?;
            cursor.region_end()?;
            Ok(answer)
        })?;
        (self.end, self.regions) = outer;
        Ok(answer)
    }

    pub fn region<T>(
        &mut self,
        name: &'static str,
        read: impl FnOnce(&mut Self) -> Answer<T>,
    ) -> Answer<T> {
        self.counted_region(name, false, read)
    }

    pub fn be_region<T>(
        &mut self,
        name: &'static str,
        read: impl FnOnce(&mut Self) -> Answer<T>,
    ) -> Answer<T> {
        self.counted_region(name, true, read)
    }

    /// All that is left of the region.
    pub fn rest(&mut self) -> Span {
        let start = self.place;
        self.place = self.end;
        self.span_from(start)
    }

    fn region_end(&self) -> Answer<()> {
        if !self.has_byte() {
            return Ok(());
        }
        let field = Span { place: self.place, length: self.end - self.place };
        Err(self.stop(6, "end", field, said("the end of the region", self.left())))
    }

    pub fn input_end(&self) -> Answer<()> {
        if !self.has_byte() {
            return Ok(());
        }
        let field = Span { place: self.place, length: self.end - self.place };
        Err(self.stop(11, "end", field, said("the end of the file", self.left())))
    }
}

/// What was expected, and what stood there.
pub struct Said {
    pub expected: String,
    pub found: String,
}

pub fn said(expected: impl Into<String>, found: impl Into<String>) -> Said {
    Said { expected: expected.into(), found: found.into() }
}
