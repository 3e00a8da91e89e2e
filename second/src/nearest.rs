//! Decoding by brute force: every code word of a short code is tried. A word is a number here, bit i its place i.

use crate::codes::Code;
use crate::words::is_code_word;

pub fn bits_of(word: u32, n: usize) -> Vec<u8> {
    (0..n).map(|i| (word >> i & 1) as u8).collect()
}

/// Every word whose sums are all 0.
pub fn code_words(code: &Code) -> Vec<u32> {
    let is_one = |word: &u32| is_code_word(code, &bits_of(*word, code.n));
    let words: Vec<u32> = (0..1 << code.n).filter(is_one).collect();
    assert_eq!(words.len(), 1 << code.k, "there are 2^k code words");
    words
}

/// The places, ascending, where the nearest code word differs, if they are at most t.
pub fn wrong_places(code_words: &[u32], t: usize, received: u32) -> Option<Vec<usize>> {
    let distance = |word: &u32| (word ^ received).count_ones();
    let differing = code_words.iter().copied().min_by_key(distance)? ^ received;
    let places = (0..32).filter(|i| differing >> i & 1 == 1);
    Some(places.collect()).filter(|places: &Vec<usize>| places.len() <= t)
}

#[cfg(test)]
mod tests {
    use super::{bits_of, code_words, wrong_places};
    use crate::codes::listed;
    use crate::euclid::Decoder;

    fn agree_on_every_word(m: u64, t: u64) {
        let code = listed(m, t).expect("a listed code");
        let decoder = Decoder::new(&code);
        let words = code_words(&code);
        for word in 0..1 << code.n {
            let by_euclid = decoder.wrong_places(&bits_of(word, code.n));
            assert_eq!(wrong_places(&words, code.t, word), by_euclid);
        }
    }

    #[test]
    fn brute_force_and_euclid_agree_on_every_short_word() {
        agree_on_every_word(3, 1);
        agree_on_every_word(4, 1);
        agree_on_every_word(4, 2);
        agree_on_every_word(4, 3);
    }
}
