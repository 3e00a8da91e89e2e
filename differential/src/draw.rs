//! Numbers and choices that look random, the same for the same seed.

pub struct Draw {
    state: u64,
}

impl Draw {
    pub fn new(seed: u64) -> Draw {
        Draw { state: seed }
    }

    /// The splitmix64 sequence.
    pub fn number(&mut self) -> u64 {
        self.state = self.state.wrapping_add(0x9E37_79B9_7F4A_7C15);
        let mut x = self.state;
        x = (x ^ (x >> 30)).wrapping_mul(0xBF58_476D_1CE4_E5B9);
        x = (x ^ (x >> 27)).wrapping_mul(0x94D0_49BB_1331_11EB);
        x ^ (x >> 31)
    }

    pub fn below(&mut self, bound: usize) -> usize {
        (self.number() % bound as u64) as usize
    }

    pub fn one_in(&mut self, count: usize) -> bool {
        self.below(count) == 0
    }

    pub fn pick<T: Copy>(&mut self, from: &[T]) -> T {
        from[self.below(from.len())]
    }

    pub fn bits(&mut self, count: usize) -> Vec<u8> {
        (0..count).map(|_| self.below(2) as u8).collect()
    }

    pub fn bytes(&mut self, count: usize) -> Vec<u8> {
        (0..count).map(|_| self.number() as u8).collect()
    }

    pub fn entries(&mut self, count: usize) -> Vec<u16> {
        (0..count).map(|_| self.number() as u16).collect()
    }

    /// Turns over exactly so many places, or all where there are fewer.
    pub fn flip(&mut self, word: &mut [u8], count: usize) {
        let n = word.len();
        let mut left = count;
        for (i, bit) in word.iter_mut().enumerate() {
            if self.below(n - i) < left {
                *bit ^= 1;
                left -= 1;
            }
        }
    }
}
