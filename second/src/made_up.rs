//! Made-up bits and places, by a linear generator of numbers below 2^31.

use crate::codes::Code;

pub struct MadeUp {
    state: u64,
}

impl MadeUp {
    pub fn new(start: u64) -> MadeUp {
        MadeUp { state: start }
    }

    /// Every code has words of its own.
    pub fn of(m: u64, code: &Code) -> MadeUp {
        MadeUp::new(m * 1000 + code.t as u64)
    }

    /// A number below the bound. The low bits of the state repeat too soon to be used.
    pub fn below(&mut self, bound: usize) -> usize {
        self.state = (self.state * 1103515245 + 12345) % (1 << 31);
        (self.state / 65536) as usize % bound
    }

    pub fn bits(&mut self, count: usize) -> Vec<u8> {
        (0..count).map(|_| self.below(2) as u8).collect()
    }

    /// Turns over exactly so many places, every such set about as likely as any other.
    pub fn flip(&mut self, word: &mut [u8], count: usize) {
        let n = word.len();
        let mut left = count;
        for (i, bit) in word.iter_mut().enumerate() {
            if self.below(n - i) < left {
                *bit ^= 1;
                left -= 1;
            }
        }
    }
}
