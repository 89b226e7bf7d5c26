//! The source of chance: splitmix64, the same on every machine.

/// A deterministic random source.
#[derive(Clone, Debug)]
pub struct Random {
    state: u64,
}

impl Random {
    /// A source from a seed.
    pub fn new(seed: u64) -> Random {
        Random { state: seed }
    }

    /// The source for case number `index` of a seed; it does not depend on
    /// the cases before.
    pub fn for_case(seed: u64, index: u64) -> Random {
        let mut start = Random::new(seed);
        let mixed = start.number() ^ index.wrapping_mul(0xD6E8_FEB8_6659_FD93);
        Random::new(Random::new(mixed).number())
    }

    /// 64 random bits.
    pub fn number(&mut self) -> u64 {
        self.state = self.state.wrapping_add(0x9E37_79B9_7F4A_7C15);
        let mut z = self.state;
        z = (z ^ (z >> 30)).wrapping_mul(0xBF58_476D_1CE4_E5B9);
        z = (z ^ (z >> 27)).wrapping_mul(0x94D0_49BB_1331_11EB);
        z ^ (z >> 31)
    }

    /// A random byte.
    pub fn byte(&mut self) -> u8 {
        self.number().to_le_bytes()[7]
    }

    /// A random 16-bit number.
    pub fn number16(&mut self) -> u16 {
        u16::from_be_bytes([self.byte(), self.byte()])
    }

    /// A random 32-bit number.
    pub fn number32(&mut self) -> u32 {
        (u32::from(self.number16()) << 16) | u32::from(self.number16())
    }

    /// A number from 0 to `limit` - 1; 0 if there is none.
    pub fn below(&mut self, limit: usize) -> usize {
        match limit {
            0 => 0,
            _ => (self.number() % limit as u64) as usize,
        }
    }

    /// A number from `low` to `high`; `low` if the range is empty.
    pub fn range(&mut self, low: u32, high: u32) -> u32 {
        let width = u64::from(high.saturating_sub(low)) + 1;
        low + (self.number() % width) as u32
    }

    /// True so many times out of a hundred.
    pub fn chance(&mut self, percent: usize) -> bool {
        self.below(100) < percent
    }

    /// One of several; nothing from an empty list.
    pub fn choose<'a, T>(&mut self, from: &'a [T]) -> Option<&'a T> {
        from.get(self.below(from.len()))
    }

    /// One of a list that is never empty.
    pub fn pick<T: Copy, const N: usize>(&mut self, from: [T; N]) -> T {
        from[self.below(N)]
    }

    /// One of several with weights; nothing if all weights are 0.
    pub fn weighted<T: Copy>(&mut self, from: &[(T, usize)]) -> Option<T> {
        let mut left = self.below(from.iter().map(|(_, weight)| weight).sum());
        for &(what, weight) in from {
            if left < weight {
                return Some(what);
            }
            left -= weight;
        }
        None
    }

    /// So many random bytes.
    pub fn bytes(&mut self, length: usize) -> Vec<u8> {
        (0..length).map(|_| self.byte()).collect()
    }
}
