//! A plain decoder of compressed case data, to measure against: what one writes who has a stream in
//! cuts and nothing to prove. It keeps a group and a block between calls, and stops at a bad code.

pub struct Plain {
    kinds: Vec<u8>,
    bias: u8,
    position: usize,
    codes: [u8; 8],
    /// The code that acts next; 8 where a group is needed, of which `held` codes are there.
    next: usize,
    held: usize,
    block: [u8; 8],
    filled: usize,
    stopped: bool,
}

impl Plain {
    pub fn new(kinds: &[u8], bias: u8) -> Plain {
        Plain {
            kinds: kinds.to_vec(),
            bias,
            position: 0,
            codes: [0; 8],
            next: 8,
            held: 0,
            block: [0; 8],
            filled: 0,
            stopped: false,
        }
    }

    /// The bytes taken and the elements written.
    pub fn feed(&mut self, input: &[u8], output: &mut [u8]) -> (usize, usize) {
        let (mut at, mut written) = (0, 0);
        while !self.stopped && written < output.len() / 8 {
            if self.next == 8 {
                let n = (8 - self.held).min(input.len() - at);
                self.codes[self.held..self.held + n].copy_from_slice(&input[at..at + n]);
                self.held += n;
                at += n;
                if self.held < 8 {
                    break;
                }
                self.held = 0;
                self.next = 0;
            }
            let code = self.codes[self.next];
            let numeric = self.kinds[self.position] == 0;
            let element = match code {
                0 => {
                    self.next += 1;
                    continue;
                }
                253 => {
                    let n = (8 - self.filled).min(input.len() - at);
                    self.block[self.filled..self.filled + n].copy_from_slice(&input[at..at + n]);
                    self.filled += n;
                    at += n;
                    if self.filled < 8 {
                        break;
                    }
                    self.filled = 0;
                    self.block
                }
                254 if !numeric => [b' '; 8],
                255 if numeric => (-f64::MAX).to_le_bytes(),
                1..=251 if numeric => (f64::from(code) - f64::from(self.bias)).to_le_bytes(),
                1..=251 if code == self.bias => [0; 8],
                _ => {
                    self.stopped = true;
                    break;
                }
            };
            output[8 * written..8 * written + 8].copy_from_slice(&element);
            written += 1;
            self.position += 1;
            if self.position == self.kinds.len() {
                self.position = 0;
            }
            self.next += 1;
        }
        (at, written)
    }
}
