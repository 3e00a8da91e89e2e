//! Words: the sums of a word, and encoding by long division.

use crate::codes::Code;
use crate::field::Element;
use crate::polynomials::divide;

/// S_1 to S_2t: the word's values at the powers of a.
pub fn sums(code: &Code, word: &[u8]) -> Vec<Element> {
    let at_power = |j| code.field.value(word, code.field.power_of_a(j));
    (1..=2 * code.t).map(at_power).collect()
}

pub fn is_code_word(code: &Code, word: &[u8]) -> bool {
    word.len() == code.n && sums(code, word).iter().all(|s| *s == 0)
}

/// The remainder of x^(n-k) times the message by the generator, then the message.
pub fn with_parity(code: &Code, generator: &[u8], message: &[u8]) -> Vec<u8> {
    let parity_places = code.n - code.k;
    let mut word = vec![0; parity_places];
    word.extend(message);
    let (_, parity) = divide(&word, generator);
    word[..parity.len()].copy_from_slice(&parity);
    word
}

/// The same, with the sums of the word looked at, which takes long in a large field.
pub fn encode(code: &Code, generator: &[u8], message: &[u8]) -> Vec<u8> {
    let word = with_parity(code, generator, message);
    assert!(is_code_word(code, &word), "encoding gives a code word");
    word
}

#[cfg(test)]
mod tests {
    use super::encode;
    use crate::codes::listed;

    /// The examples checked by hand: the places that hold 1.
    fn encoded_places(m: u64, t: u64, message_places: &[usize]) -> Vec<usize> {
        let code = listed(m, t).expect("a listed code");
        let mut message = vec![0; code.k];
        for place in message_places {
            message[*place] = 1;
        }
        let word = encode(&code, &code.generator(), &message);
        (0..code.n).filter(|place| word[*place] == 1).collect()
    }

    #[test]
    fn encoding_gives_the_words_checked_by_hand() {
        assert_eq!(encoded_places(4, 1, &[0]), [0, 1, 4]);
        assert_eq!(encoded_places(4, 2, &[0]), [0, 4, 6, 7, 8]);
        let third = [0, 1, 2, 6, 9, 10, 12, 14];
        assert_eq!(encoded_places(4, 3, &[0, 2, 4]), third);
        let all_ones: Vec<usize> = (0..15).collect();
        assert_eq!(encoded_places(4, 3, &[0, 1, 2, 3, 4]), all_ones);
    }
}
