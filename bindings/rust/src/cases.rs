//! Compressed case data as it arrives: a reader on one side, cases on the other.

use std::error::Error;
use std::fmt;
use std::io::{self, Read};

use crate::lent::{self, CASES_ANSWER, CASES_FEED_ANSWER, CASES_STATE};
use crate::Refusal;

/// Bytes that are asked of the reader at once.
const CUT: usize = 65_536;
/// Elements that are decoded at once.
const ROOM: usize = 1_024;

/// The kind of an element of a case.
#[derive(Clone, Copy, Debug, PartialEq, Eq)]
pub enum Kind {
    Numeric,
    String,
}

/// An element of a case. A string variable that is longer has several.
#[derive(Clone, Copy, Debug, PartialEq)]
pub enum Element {
    Number(f64),
    String([u8; 8]),
}

/// Why the cases stop before the data ends.
#[derive(Debug)]
pub enum CaseError {
    /// The reader failed.
    Read(io::Error),
    /// 22 at a code, 7 at the byte too many, 23 at the end.
    Refused(Refusal),
}

impl fmt::Display for CaseError {
    fn fmt(&self, f: &mut fmt::Formatter) -> fmt::Result {
        match self {
            CaseError::Read(error) => write!(f, "{error}"),
            CaseError::Refused(refusal) => write!(f, "{refusal}"),
        }
    }
}

/// Its source is that of the error it holds, whose words it shows itself.
impl Error for CaseError {
    fn source(&self) -> Option<&(dyn Error + 'static)> {
        match self {
            CaseError::Read(error) => error.source(),
            CaseError::Refused(refusal) => refusal.source(),
        }
    }
}

/// The cases of a compressed data record, one after the other.
///
/// A case that a 252 cuts short is not given. After an error there are no more.
///
/// ```
/// use digarumbi::{Cases, Element, Kind};
/// let data: &[u8] = &[101, 254, 255, 100, 252, 0, 0, 0];
/// let cases = Cases::new(data, &[Kind::Numeric, Kind::String], 100).unwrap();
/// let cases: Vec<_> = cases.map(|case| case.unwrap()).collect();
/// assert_eq!(cases[0], [Element::Number(1.0), Element::String(*b"        ")]);
/// assert_eq!(cases[1], [Element::Number(-f64::MAX), Element::String([0; 8])]);
/// ```
pub struct Cases<R> {
    reader: R,
    kinds: Vec<Kind>,
    state: Box<[u32; CASES_STATE]>,
    /// What the reader gave, of which the bytes from `next` on are still to be taken.
    input: Vec<u8>,
    next: usize,
    at_end: bool,
    /// Elements that were decoded, of which those from `given` on are still to be given.
    output: Vec<u8>,
    written: usize,
    given: usize,
    stopped: bool,
}

impl<R: Read> Cases<R> {
    /// 1 to 256 kinds, and a bias up to 255; else 21.
    pub fn new(reader: R, kinds: &[Kind], bias: u32) -> Result<Cases<R>, Refusal> {
        let bytes: Vec<u8> = kinds.iter().map(|&kind| kind as u8).collect();
        let mut state = Box::new([0; CASES_STATE]);
        let mut answer = [0; CASES_ANSWER];
        lent::cases_start(&bytes, bias, &mut state[..], &mut answer);
        match answer[0] {
            0 => Ok(Cases {
                reader,
                kinds: kinds.to_vec(),
                state,
                input: Vec::new(),
                next: 0,
                at_end: false,
                output: vec![0; 8 * ROOM],
                written: 0,
                given: 0,
                stopped: false,
            }),
            number => Err(Refusal::new(number, answer[1])),
        }
    }

    /// The next element; none at the end.
    fn element(&mut self, kind: Kind) -> Result<Option<Element>, CaseError> {
        while self.given == self.written {
            if !self.decode()? {
                return Ok(None);
            }
        }
        let at = 8 * self.given;
        let bytes: [u8; 8] = self.output[at..at + 8].try_into().expect("eight bytes");
        self.given += 1;
        Ok(Some(match kind {
            Kind::Numeric => Element::Number(f64::from_le_bytes(bytes)),
            Kind::String => Element::String(bytes),
        }))
    }

    /// Decodes more elements; false at the end.
    fn decode(&mut self) -> Result<bool, CaseError> {
        if self.next == self.input.len() && !self.at_end {
            self.read().map_err(CaseError::Read)?;
        }
        let mut answer = [0; CASES_FEED_ANSWER];
        let offered = &self.input[self.next..];
        lent::cases_feed(&mut self.state[..], offered, &mut self.output, &mut answer);
        let (taken, written) = (answer[2] as usize, answer[3] as usize);
        self.next += taken;
        (self.written, self.given) = (written, 0);
        if written == 0 && answer[0] != 0 {
            return Err(CaseError::Refused(Refusal::new(answer[0], answer[1])));
        }
        let idle = taken == 0 && written == 0;
        // what is offered and not taken lies behind a 252
        if idle && (self.at_end || !offered.is_empty()) {
            return self.end().map(|()| false);
        }
        Ok(true)
    }

    fn read(&mut self) -> io::Result<()> {
        self.input.resize(CUT, 0);
        self.next = 0;
        let n = loop {
            match self.reader.read(&mut self.input) {
                Err(error) if error.kind() == io::ErrorKind::Interrupted => continue,
                other => break other,
            }
        };
        self.input.truncate(*n.as_ref().unwrap_or(&0));
        self.at_end = n? == 0;
        Ok(())
    }

    fn end(&self) -> Result<(), CaseError> {
        let mut answer = [0; CASES_ANSWER];
        lent::cases_end(&self.state[..], &mut answer);
        match answer[0] {
            0 => Ok(()),
            number => Err(CaseError::Refused(Refusal::new(number, answer[1]))),
        }
    }

    fn case(&mut self) -> Result<Option<Vec<Element>>, CaseError> {
        let mut case = Vec::with_capacity(self.kinds.len());
        for at in 0..self.kinds.len() {
            match self.element(self.kinds[at])? {
                Some(element) => case.push(element),
                None => return Ok(None),
            }
        }
        Ok(Some(case))
    }
}

impl<R: Read> Iterator for Cases<R> {
    type Item = Result<Vec<Element>, CaseError>;

    fn next(&mut self) -> Option<Self::Item> {
        if self.stopped {
            return None;
        }
        let case = self.case().transpose();
        self.stopped = !matches!(case, Some(Ok(_)));
        case
    }
}
