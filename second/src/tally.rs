//! Counts and a sum over many answers.

use crate::codes::Code;
use crate::euclid::flipped;

/// What a line says of many words. The sum depends on every answer and on every place of both buffers after it.
#[derive(Default)]
pub struct Tally {
    pub mended: usize,
    pub refused: usize,
    pub wrong: usize,
    pub sum: u64,
}

impl Tally {
    pub fn mix(&mut self, x: usize) {
        self.sum = (self.sum * 31 + x as u64) % 65521;
    }

    pub fn mix_all(&mut self, xs: impl IntoIterator<Item = usize>) {
        xs.into_iter().for_each(|x| self.mix(x));
    }

    pub fn add(&mut self, code: &Code, received: &[u8], places: Option<Vec<usize>>) {
        match places {
            Some(places) => self.add_mended(code.t, &flipped(received, &places), &places),
            None => self.add_refused(code),
        }
    }

    /// Number 0 with two zeros, the number of wrong places, the word, and the list with its zeros.
    fn add_mended(&mut self, t: usize, word: &[u8], places: &[usize]) {
        self.mended += 1;
        self.wrong += places.len();
        self.mix_all([0, 0, 0, places.len()]);
        self.mix_all(word.iter().map(|bit| usize::from(*bit)));
        self.mix_all(places.iter().copied());
        self.mix_all(vec![0; t - places.len()]);
    }

    /// Number 6 with two zeros, no wrong places, and both buffers as lent: the word filled with 170, the list with 43690.
    fn add_refused(&mut self, code: &Code) {
        self.refused += 1;
        self.mix_all([6, 0, 0, 0]);
        self.mix_all(vec![170; code.n]);
        self.mix_all(vec![43690; code.t]);
    }
}
