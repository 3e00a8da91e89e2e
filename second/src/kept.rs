//! The kept record: opening one, splicing into it, decoding what is kept.

use crate::codes::Code;
use crate::euclid::{flipped, Decoder};
use crate::field::Element;
use crate::tables::Tables;

pub const BITS: usize = 1023;
pub const SUMS: usize = 255;

/// A record as it is handed about: it may hold anything.
#[derive(Clone, Debug, PartialEq)]
pub struct Kept {
    pub m: u64,
    pub t: u64,
    pub bits: Vec<u8>,
    pub sums: Vec<u16>,
}

impl Kept {
    pub fn zeros() -> Kept {
        Kept {
            m: 0,
            t: 0,
            bits: vec![0; BITS],
            sums: vec![0; SUMS],
        }
    }
}

/// S_1, S_3, .. S_(2t-1) of the word that holds 1 at these places.
fn odd_sums(code: &Code, places: impl Iterator<Item = usize>) -> Vec<Element> {
    let tables = Tables::new(&code.field);
    let mut sums = vec![0; code.t];
    for place in places {
        for (i, sum) in sums.iter_mut().enumerate() {
            *sum ^= tables.power_of_a(place * (2 * i + 1) % code.n);
        }
    }
    sums
}

pub fn open(m: u64, code: &Code, word: &[u8]) -> Kept {
    let mut record = Kept::zeros();
    record.m = m;
    record.t = code.t as u64;
    record.bits[..code.n].copy_from_slice(word);
    let ones = (0..code.n).filter(|i| word[*i] == 1);
    for (kept, sum) in record.sums.iter_mut().zip(odd_sums(code, ones)) {
        *kept = sum as u16;
    }
    record
}

/// The places are replaced, and the sums of those that changed are added to what is stored, whatever that is.
pub fn splice(code: &Code, record: &Kept, start: usize, stretch: &[u8]) -> Kept {
    let mut result = record.clone();
    let changed = (0..stretch.len()).filter(|i| record.bits[start + i] != stretch[*i]);
    for (kept, sum) in result
        .sums
        .iter_mut()
        .zip(odd_sums(code, changed.map(|i| start + i)))
    {
        *kept ^= sum as u16;
    }
    result.bits[start..start + stretch.len()].copy_from_slice(stretch);
    result
}

/// The mended word and its wrong places, if at most t places have the stored sums.
pub fn decode_kept(code: &Code, record: &Kept) -> Option<(Vec<u8>, Vec<usize>)> {
    let stored: Vec<Element> = record.sums[..code.t]
        .iter()
        .map(|s| Element::from(*s))
        .collect();
    let places = Decoder::new(code).places_of_sums(&stored)?;
    Some((flipped(&record.bits[..code.n], &places), places))
}

#[cfg(test)]
mod tests {
    use super::{decode_kept, open, splice};
    use crate::codes::listed;

    #[test]
    fn splices_into_a_kept_word_checked_by_hand() {
        let code = listed(4, 3).expect("a listed code");
        let zeros = open(4, &code, &[0; 15]);
        let four = splice(&code, &zeros, 0, &[1, 1, 1, 1]);
        assert_eq!(decode_kept(&code, &four), None);
        let other = splice(&code, &four, 3, &[0, 1]);
        let (_, places) = decode_kept(&code, &other).expect("three places are wrong");
        assert_eq!(places, [5, 8, 10]);
    }

    #[test]
    fn stored_sums_decide_and_splices_add_to_them() {
        let code = listed(4, 3).expect("a listed code");
        let mut record = open(4, &code, &[0; 15]);
        record.bits[..5].copy_from_slice(&[1, 1, 1, 0, 1]);
        let (word, places) = decode_kept(&code, &record).expect("the stored sums are 0");
        assert_eq!((word, places), (record.bits[..15].to_vec(), vec![]));
        let mut by_hand = open(4, &code, &[0; 15]);
        by_hand.sums[..3].copy_from_slice(&[3, 7, 1]);
        let spliced = splice(&code, &by_hand, 0, &[1]);
        assert_eq!(spliced.sums[..3], [2, 6, 0]);
    }

    #[test]
    fn splicing_the_whole_word_is_opening_it() {
        let code = listed(5, 2).expect("a listed code");
        let word: Vec<u8> = (0..31).map(|i| (i % 3 == 0) as u8).collect();
        let spliced = splice(&code, &open(5, &code, &[1; 31]), 0, &word);
        assert_eq!(spliced, open(5, &code, &word));
    }
}
