//! Compressed case data as it arrives (source document 004, "Data Record"; document 02, T-05): a
//! decoder that takes bytes in any cuts, and a generator of streams for it.

use crate::random::Random;
use crate::refusal::Refusal;

pub const NUMERIC: u8 = 0;
pub const STRING: u8 = 1;

pub const TOO_MANY: u32 = 7;
pub const BAD_STATE: u32 = 21;
pub const BAD_CODE: u32 = 22;
pub const TOO_SOON: u32 = 23;

/// The position of the first byte too many.
pub const LIMIT: u64 = 4_294_967_295;

const MISSING: [u8; 8] = (-f64::MAX).to_le_bytes();

/// What stands between two calls.
#[derive(Clone, Debug, PartialEq)]
pub enum Phase {
    /// Part of a group, fewer than eight codes.
    Group(Vec<u8>),
    /// A group of which the codes from `next` on are still to act, and part of the next one's block.
    Codes {
        codes: [u8; 8],
        first: u64,
        next: usize,
        block: Vec<u8>,
    },
    Ended,
    Refused(Refusal),
}

#[derive(Clone, Debug)]
pub struct Decoder {
    pub kinds: Vec<u8>,
    pub bias: u8,
    /// The position in the case.
    pub position: usize,
    pub taken: u64,
    pub phase: Phase,
}

#[derive(Clone, Copy, Debug, PartialEq, Eq)]
pub struct Fed {
    pub taken: usize,
    pub written: usize,
}

/// What a code stands for.
enum Meaning {
    Nothing,
    End,
    Block,
    Bad,
    Element([u8; 8]),
}

impl Decoder {
    pub fn start(kinds: &[u8], bias: u32) -> Result<Decoder, Refusal> {
        let known = kinds.iter().all(|&kind| kind == NUMERIC || kind == STRING);
        if kinds.is_empty() || kinds.len() > 256 || !known || bias > 255 {
            return Err(Refusal::new(BAD_STATE, 0));
        }
        Ok(Decoder {
            kinds: kinds.to_vec(),
            bias: bias as u8,
            position: 0,
            taken: 0,
            phase: Phase::Group(Vec::new()),
        })
    }

    pub fn refusal(&self) -> Option<Refusal> {
        match self.phase {
            Phase::Refused(refusal) => Some(refusal),
            _ => None,
        }
    }

    fn meaning(&self, code: u8) -> Meaning {
        match (code, self.kinds[self.position]) {
            (0, _) => Meaning::Nothing,
            (252, _) => Meaning::End,
            (253, _) => Meaning::Block,
            (254, NUMERIC) | (255, STRING) => Meaning::Bad,
            (254, _) => Meaning::Element([b' '; 8]),
            (255, _) => Meaning::Element(MISSING),
            (_, NUMERIC) => {
                Meaning::Element((f64::from(code) - f64::from(self.bias)).to_le_bytes())
            }
            _ if code == self.bias => Meaning::Element([0; 8]),
            _ => Meaning::Bad,
        }
    }

    /// One call: takes bytes of the input and writes elements as long as it can.
    pub fn feed(&mut self, input: &[u8], output: &mut [u8]) -> Fed {
        let mut fed = Fed { taken: 0, written: 0 };
        while fed.written < output.len() / 8 {
            match self.phase.clone() {
                Phase::Ended | Phase::Refused(_) => break,
                Phase::Group(mut codes) => {
                    if !self.fill(&mut codes, input, &mut fed.taken) {
                        if !matches!(self.phase, Phase::Refused(_)) {
                            self.phase = Phase::Group(codes);
                        }
                        break;
                    }
                    let codes: [u8; 8] = codes.try_into().expect("eight codes");
                    let first = self.taken - 8;
                    self.phase = Phase::Codes { codes, first, next: 0, block: Vec::new() };
                }
                Phase::Codes { codes, first, next, mut block } => {
                    let element = match self.meaning(codes[next]) {
                        Meaning::Nothing => None,
                        Meaning::End => {
                            self.phase = Phase::Ended;
                            break;
                        }
                        Meaning::Bad => {
                            let place = (first + next as u64) as usize;
                            self.phase = Phase::Refused(Refusal::new(BAD_CODE, place));
                            break;
                        }
                        Meaning::Block => {
                            if !self.fill(&mut block, input, &mut fed.taken) {
                                if !matches!(self.phase, Phase::Refused(_)) {
                                    self.phase = Phase::Codes { codes, first, next, block };
                                }
                                break;
                            }
                            Some(block.try_into().expect("eight bytes"))
                        }
                        Meaning::Element(element) => Some(element),
                    };
                    if let Some(element) = element {
                        output[8 * fed.written..8 * fed.written + 8].copy_from_slice(&element);
                        fed.written += 1;
                        self.position = (self.position + 1) % self.kinds.len();
                    }
                    self.phase = if next == 7 {
                        Phase::Group(Vec::new())
                    } else {
                        Phase::Codes { codes, first, next: next + 1, block: Vec::new() }
                    };
                }
            }
        }
        fed
    }

    /// Takes what is missing of eight bytes; false if the input has not as many, or at the limit.
    fn fill(&mut self, eight: &mut Vec<u8>, input: &[u8], at: &mut usize) -> bool {
        let offered = &input[*at..];
        let wanted = 8 - eight.len();
        let allowed = (LIMIT - self.taken).min(wanted as u64) as usize;
        let n = allowed.min(offered.len());
        eight.extend_from_slice(&offered[..n]);
        self.taken += n as u64;
        *at += n;
        if n < wanted && n < offered.len() {
            self.phase = Phase::Refused(Refusal::new(TOO_MANY, LIMIT as usize));
        }
        n == wanted
    }

    /// The answer to the end of the stream.
    pub fn end(&self) -> Option<Refusal> {
        match &self.phase {
            Phase::Ended => None,
            Phase::Refused(refusal) => Some(*refusal),
            Phase::Group(codes) if codes.is_empty() && self.position == 0 => None,
            _ => Some(Refusal::new(TOO_SOON, self.taken as usize)),
        }
    }
}

/// The kinds of a case and a bias; most biases are 100, as in real files.
pub fn start(random: &mut Random) -> (Vec<u8>, u32) {
    let most = random.pick(&[1, 3, 8, 20, 256]);
    let count = 1 + random.size(most - 1);
    let strings = random.pick(&[0, 1, 3, 4]);
    let kinds = (0..count).map(|_| u8::from(random.below(4) < strings)).collect();
    let bias = match random.below(5) {
        0 => random.size(255) as u32,
        _ => 100,
    };
    (kinds, bias)
}

/// A stream for these kinds, with `groups` groups: mostly right, with wrong codes now and then.
pub fn stream(random: &mut Random, kinds: &[u8], bias: u32, groups: usize) -> Vec<u8> {
    let (mut bytes, mut position) = (Vec::new(), 0);
    let wrong = random.pick(&[50, 1_000, 1_000_000]);
    let ends = random.pick(&[60, 1_000, 1_000_000]);
    for _ in 0..groups {
        let mut blocks = 0;
        for _ in 0..8 {
            let code = if random.once_in(wrong) {
                random.next_number() as u8
            } else if random.once_in(ends) {
                252
            } else if random.once_in(8) {
                0
            } else if random.once_in(4) {
                253
            } else if kinds[position] == NUMERIC {
                let any = 1 + random.below(251) as u8;
                random.pick(&[255, 1, 99, 100, 101, 251, any])
            } else {
                random.pick(&[254, 254, 253, bias as u8])
            };
            blocks += usize::from(code == 253);
            if code != 0 && code != 252 {
                position = (position + 1) % kinds.len();
            }
            bytes.push(code);
        }
        for _ in 0..8 * blocks {
            bytes.push(random.next_number() as u8);
        }
    }
    let cut = if random.once_in(3) { random.size(bytes.len()) } else { bytes.len() };
    bytes.truncate(cut);
    bytes
}
