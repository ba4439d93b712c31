//! The source of a consumer's random words.

/// A source of random words (xorshift). It is cheap, and gives the same words in each run.
pub struct Source {
    state: u64,
}

impl Source {
    pub fn new() -> Source {
        Source { state: 0x9E37_79B9_7F4A_7C15 }
    }

    #[inline]
    pub fn word(&mut self) -> u64 {
        let mut word = self.state;
        word ^= word << 13;
        word ^= word >> 7;
        word ^= word << 17;
        self.state = word;
        word
    }
}
