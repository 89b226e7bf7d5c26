//! Rules at random, the same in every run.

/// Bytes without a pattern.
pub struct Noise(u64);

impl Noise {
    pub fn new(seed: u64) -> Noise {
        Noise(seed.wrapping_mul(0x9E37_79B9_7F4A_7C15) | 1)
    }

    /// A number below another.
    pub fn below(&mut self, end: u64) -> u64 {
        self.0 ^= self.0 << 13;
        self.0 ^= self.0 >> 7;
        self.0 ^= self.0 << 17;
        (self.0 >> 16) % end
    }

    pub fn byte(&mut self) -> u8 {
        self.below(256) as u8
    }

    /// An SC byte of few environments, so that states meet it.
    pub fn condition_byte(&mut self) -> u8 {
        match self.below(8) {
            0 => 0x00,
            1 => 0xFF,
            2 => self.byte(),
            _ => self.byte() & 0xF3,
        }
    }

    pub fn compact(&mut self) -> Vec<u8> {
        let mut rule = Vec::new();
        for _ in 0..1 + self.below(3) {
            let rights = self.byte() & 0x7F;
            rule.push(rights);
            (0..rights.count_ones()).for_each(|_| rule.push(self.condition_byte()));
        }
        rule
    }

    pub fn expanded(&mut self) -> Vec<u8> {
        let mut rule = Vec::new();
        for _ in 0..1 + self.below(3) {
            rule.extend([0x80, 0x01, self.byte() & 0x7F]);
            (0..1 + self.below(2)).for_each(|_| rule.extend(self.condition(4)));
        }
        rule
    }

    fn condition(&mut self, depth: u64) -> Vec<u8> {
        match self.below(4) {
            0 => vec![0x90, 0x00],
            1 => vec![0x97, 0x00],
            2 if depth > 0 => {
                let conditions = (0..2 + self.below(2)).map(|_| self.condition(depth - 1));
                let inside: Vec<u8> = conditions.collect::<Vec<_>>().concat();
                let tag = if self.below(2) == 0 { 0xA0 } else { 0xAF };
                match inside.len() {
                    0..=0x7F => [&[tag, inside.len() as u8], &inside[..]].concat(),
                    _ => vec![0x90, 0x00],
                }
            }
            _ => vec![0x9E, 0x01, self.condition_byte()],
        }
    }

    /// The same with something changed, cut off or put in.
    pub fn bent(&mut self, mut rule: Vec<u8>) -> Vec<u8> {
        let place = self.below(rule.len() as u64 + 1) as usize;
        const LIKELY: [u8; 10] = [0x80, 0x90, 0x97, 0x9E, 0xA0, 0xAF, 0x00, 0x01, 0x02, 0x04];
        let byte = match self.below(2) {
            0 => LIKELY[self.below(10) as usize],
            _ => self.byte(),
        };
        match self.below(4) {
            0 => rule.truncate(place),
            1 => rule.insert(place, byte),
            _ => rule.iter_mut().skip(place).take(1).for_each(|old| *old = byte),
        }
        rule
    }
}
