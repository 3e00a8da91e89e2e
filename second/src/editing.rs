//! Editing a sent word: the code word that carries the change of the message is added.

use crate::codes::Code;
use crate::words::with_parity;

pub fn edit(code: &Code, generator: &[u8], word: &[u8], start: usize, stretch: &[u8]) -> Vec<u8> {
    let message = &word[code.n - code.k..];
    let mut change = vec![0; code.k];
    for (i, bit) in stretch.iter().enumerate() {
        change[start + i] = bit ^ message[start + i];
    }
    let carrier = with_parity(code, generator, &change);
    word.iter().zip(carrier).map(|(x, y)| x ^ y).collect()
}

#[cfg(test)]
mod tests {
    use super::edit;
    use crate::codes::listed;
    use crate::words::encode;

    #[test]
    fn the_zero_word_becomes_the_word_checked_by_hand() {
        let code = listed(4, 3).expect("a listed code");
        let word = edit(&code, &code.generator(), &[0; 15], 0, &[1, 0, 1, 0, 1]);
        let ones: Vec<usize> = (0..15).filter(|i| word[*i] == 1).collect();
        assert_eq!(ones, [0, 1, 2, 6, 9, 10, 12, 14]);
    }

    #[test]
    fn an_edited_code_word_is_the_encoding_of_the_edited_message() {
        let code = listed(5, 3).expect("a listed code");
        let generator = code.generator();
        let mut message = vec![1; code.k];
        let word = encode(&code, &generator, &message);
        message[3..6].copy_from_slice(&[0, 1, 0]);
        let edited = edit(&code, &generator, &word, 3, &[0, 1, 0]);
        assert_eq!(edited, encode(&code, &generator, &message));
    }
}
