//! Repeatable random bytes (xorshift64*): both programs must draw the same
//! inputs, so the generator is part of what the vectors mean.

pub struct Random {
    state: u64,
}

impl Random {
    pub fn new(start: u64) -> Random {
        // From 0 the generator would only ever give 0.
        assert!(start != 0, "the start state must not be 0");
        Random { state: start }
    }

    fn next(&mut self) -> u64 {
        self.state ^= self.state >> 12;
        self.state ^= self.state << 25;
        self.state ^= self.state >> 27;
        self.state.wrapping_mul(0x2545_F491_4F6C_DD1D)
    }

    /// The top of one output, where the bits are mixed best.
    pub fn byte(&mut self) -> u8 {
        (self.next() >> 56) as u8
    }

    /// As many single bytes, each of its own output.
    pub fn bytes(&mut self, count: usize) -> Vec<u8> {
        (0..count).map(|_| self.byte()).collect()
    }

    /// True once in `count` draws or so.
    pub fn once_in(&mut self, count: u8) -> bool {
        self.byte().is_multiple_of(count)
    }

    /// One of a few, each as likely as the others or nearly so.
    pub fn pick<T: Copy>(&mut self, from: &[T]) -> T {
        from[usize::from(self.byte()) % from.len()]
    }
}
