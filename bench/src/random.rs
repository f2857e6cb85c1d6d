//! A small deterministic generator of pseudo-random numbers (xorshift64*).

pub struct Random(u64);

impl Random {
    pub fn new(seed: u64) -> Random {
        // The state of a xorshift generator must not be 0.
        let mut random =
            Random(seed.wrapping_mul(0x9e37_79b9_7f4a_7c15) ^ 0x2545_f491_4f6c_dd1d | 1);
        random.next_number();
        random
    }

    pub fn next_number(&mut self) -> u64 {
        self.0 ^= self.0 >> 12;
        self.0 ^= self.0 << 25;
        self.0 ^= self.0 >> 27;
        self.0.wrapping_mul(0x2545_f491_4f6c_dd1d)
    }

    /// A number below `bound`, which is not 0.
    pub fn below(&mut self, bound: u64) -> u64 {
        (self.next_number() >> 16) % bound
    }

    /// A size from 0 to `most`.
    pub fn size(&mut self, most: usize) -> usize {
        self.below(most as u64 + 1) as usize
    }

    /// True once in `times` on average.
    pub fn once_in(&mut self, times: u64) -> bool {
        self.below(times) == 0
    }

    pub fn pick<T: Clone>(&mut self, choices: &[T]) -> T {
        choices[self.size(choices.len() - 1)].clone()
    }

    pub fn shuffle<T>(&mut self, items: &mut [T]) {
        for last in (1..items.len()).rev() {
            items.swap(last, self.size(last));
        }
    }

    /// A byte; those that have a meaning in the layout are frequent.
    pub fn byte(&mut self) -> u8 {
        if self.once_in(2) {
            self.pick(&[0x00, 0x01, 0x02, 0x03, 0x06, 0x31, 0x55, 0x58, 0xfe, 0xff])
        } else {
            self.next_number() as u8
        }
    }

    pub fn bytes(&mut self, length: usize) -> Vec<u8> {
        (0..length).map(|_| self.byte()).collect()
    }

    pub fn bool(&mut self) -> u8 {
        self.below(2) as u8
    }
}
