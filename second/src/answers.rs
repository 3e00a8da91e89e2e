//! Each operation whole, with its refusals: what is told of a refusal, or what the operation gives.

use crate::codes::Code;
use crate::euclid::{flipped, Decoder};
use crate::frames::{Link, Reading, FRAME_BYTES};
use crate::kept::Kept;
use crate::sheet::{plain, Refusal};
use crate::{book, editing, kept, sheet, words};
use std::collections::BTreeMap;
use std::ops::Range;

/// n and k.
#[derive(Debug, PartialEq)]
pub struct Sizes {
    pub n: usize,
    pub k: usize,
}

/// n, k and the generator.
#[derive(Debug, PartialEq)]
pub struct Described {
    pub n: usize,
    pub k: usize,
    pub generator: Vec<u8>,
}

/// The mended word, and the wrong places ascending.
#[derive(Debug, PartialEq)]
pub struct Mended {
    pub word: Vec<u8>,
    pub places: Vec<usize>,
}

/// Keeps the generators that were asked for, since finding one takes long in a large field.
#[derive(Default)]
pub struct Answers {
    generators: BTreeMap<(usize, usize), Vec<u8>>,
    link: Link,
}

impl Answers {
    fn generator(&mut self, code: &Code) -> &[u8] {
        let key = (code.n, code.t);
        self.generators
            .entry(key)
            .or_insert_with(|| code.generator())
    }

    pub fn sizes(&self, m: u64, t: u64) -> Result<Sizes, Refusal> {
        sheet::sizes(m, t).map(|Code { n, k, .. }| Sizes { n, k })
    }

    pub fn describe(&mut self, m: u64, t: u64, places: usize) -> Result<Described, Refusal> {
        let code = sheet::describe(m, t, places)?;
        let generator = self.generator(&code).to_vec();
        let (n, k) = (code.n, code.k);
        Ok(Described { n, k, generator })
    }

    pub fn encode(
        &mut self,
        m: u64,
        t: u64,
        message: &[u8],
        places: usize,
    ) -> Result<Vec<u8>, Refusal> {
        let code = sheet::encode(m, t, message, places)?;
        Ok(words::with_parity(&code, self.generator(&code), message))
    }

    pub fn decode(
        &self,
        m: u64,
        t: u64,
        received: &[u8],
        word_places: usize,
        list_places: usize,
    ) -> Result<Mended, Refusal> {
        let code = sheet::decode(m, t, received, word_places, list_places)?;
        let places = Decoder::new(&code).wrong_places(received).ok_or(plain(6))?;
        let word = flipped(received, &places);
        Ok(Mended { word, places })
    }

    pub fn edit(
        &mut self,
        m: u64,
        t: u64,
        word: &[u8],
        start: u64,
        stretch: &[u8],
    ) -> Result<Vec<u8>, Refusal> {
        let code = sheet::edit(m, t, word, start, stretch)?;
        let generator = self.generator(&code);
        Ok(editing::edit(
            &code,
            generator,
            word,
            start as usize,
            stretch,
        ))
    }

    pub fn open(&self, m: u64, t: u64, word: &[u8]) -> Result<Kept, Refusal> {
        sheet::open(m, t, word).map(|code| kept::open(m, &code, word))
    }

    pub fn splice(&self, record: &Kept, start: u64, stretch: &[u8]) -> Result<Kept, Refusal> {
        let code = sheet::splice(record, start, stretch)?;
        Ok(kept::splice(&code, record, start as usize, stretch))
    }

    pub fn decode_kept(
        &self,
        record: &Kept,
        word_places: usize,
        list_places: usize,
    ) -> Result<Mended, Refusal> {
        let code = sheet::decode_kept(record, word_places, list_places)?;
        let (word, places) = kept::decode_kept(&code, record).ok_or(plain(6))?;
        Ok(Mended { word, places })
    }

    pub fn make_frame(&self, reading: Reading, bytes: usize) -> Result<[u8; FRAME_BYTES], Refusal> {
        if bytes != FRAME_BYTES {
            return Err(plain(9));
        }
        Ok(self.link.make(reading))
    }

    pub fn read_frame(&self, frame: &[u8]) -> Result<(Reading, usize), Refusal> {
        self.link.read(frame).map_err(plain)
    }

    pub fn look_at_book(&self, book: &[u8]) -> Result<usize, Refusal> {
        sheet::look_at_book(book)
    }

    pub fn read_book(&self, book: &[u8], i: u64) -> Result<Range<usize>, Refusal> {
        let count = sheet::read_book(book, i)?;
        Ok(book::places(book.len(), count)[i as usize].clone())
    }

    pub fn write_book(&self, frames: &[u8], book_bytes: usize) -> Result<Vec<u8>, Refusal> {
        sheet::write_book(frames, book_bytes)?;
        Ok(book::written(frames))
    }
}

#[cfg(test)]
mod tests {
    use super::{plain, Answers, Mended, Refusal, Sizes};

    #[test]
    fn sizes_known_by_hand() {
        let answers = Answers::default();
        assert_eq!(answers.sizes(4, 3), Ok(Sizes { n: 15, k: 5 }));
        assert_eq!(answers.sizes(8, 23), Ok(Sizes { n: 255, k: 99 }));
        assert_eq!(answers.sizes(10, 255), Ok(Sizes { n: 1023, k: 11 }));
    }

    #[test]
    fn sizes_refused_in_order() {
        let answers = Answers::default();
        for (m, t) in [(2, 1), (11, 1), (2, 0), (u64::MAX, u64::MAX)] {
            assert_eq!(answers.sizes(m, t), Err(plain(1)), "m {m}, t {t}");
        }
        let unlisted = [(4, 0), (4, 4), (7, 8), (10, 256), (3, 3), (4, 7)];
        for (m, t) in unlisted.into_iter().chain([(10, u64::MAX)]) {
            assert_eq!(answers.sizes(m, t), Err(plain(2)), "m {m}, t {t}");
        }
    }

    #[test]
    fn words_and_refusals_checked_by_hand() {
        let mut answers = Answers::default();
        let third = vec![1, 1, 1, 0, 0, 0, 1, 0, 0, 1, 1, 0, 1, 0, 1];
        let message = [1, 0, 1, 0, 1];
        assert_eq!(answers.encode(4, 3, &message, 15), Ok(third.clone()));
        assert_eq!(answers.edit(4, 3, &[0; 15], 0, &message), Ok(third.clone()));
        assert_eq!(answers.edit(4, 3, &third, u64::MAX, &[1]), Err(plain(12)));
        let mended = Mended {
            word: vec![1, 1, 0, 1, 0, 0, 0],
            places: vec![3],
        };
        let received = [1, 1, 0, 0, 0, 0, 0];
        assert_eq!(answers.decode(3, 1, &received, 7, 1), Ok(mended));
        assert_eq!(answers.decode(3, 1, &received, 7, 2), Err(plain(4)));
    }

    /// What is told of a bit above 1.
    fn bad_bit(buffer: usize, place: usize) -> Refusal {
        Refusal {
            number: 5,
            buffer,
            place,
        }
    }

    #[test]
    fn the_first_bad_bit_is_told() {
        let mut answers = Answers::default();
        let record = answers.open(4, 3, &[0; 15]).expect("zeros are taken");
        assert_eq!(answers.splice(&record, 10, &[1, 0, 2]), Err(bad_bit(0, 2)));
        let mut word = [0; 15];
        assert_eq!(answers.edit(4, 3, &word, 0, &[1, 3]), Err(bad_bit(1, 1)));
        (word[7], word[9]) = (2, 255);
        assert_eq!(answers.edit(4, 3, &word, 0, &[3]), Err(bad_bit(0, 7)));
        assert_eq!(answers.open(4, 3, &word), Err(bad_bit(0, 7)));
        assert_eq!(answers.decode(4, 3, &word, 15, 3), Err(bad_bit(0, 7)));
        assert_eq!(answers.decode(4, 3, &word, 15, 4), Err(plain(4)));
        let message = [1, 0, 1, 1, 2];
        assert_eq!(answers.encode(4, 3, &message, 15), Err(bad_bit(0, 4)));
    }

    #[test]
    fn the_largest_code_has_11_message_places() {
        let described = Answers::default().describe(10, 255, 1013);
        assert_eq!(described.map(|code| (code.n, code.k)), Ok((1023, 11)));
    }
}
