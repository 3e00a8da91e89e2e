//! A model of the refusal sheet: the first check of an operation's order that refuses, and with 5 which bit it is.

use crate::book::{self, MOST_FRAMES, TRAILER_BYTES};
use crate::codes::{is_field_size, listed, Code};
use crate::frames::FRAME_BYTES;
use crate::kept::Kept;

/// What a refused call is told: the number; with 5 the buffer and the first place in it that holds more than 1, and zeros with every other number.
#[derive(Clone, Copy, Debug, PartialEq)]
pub struct Refusal {
    pub number: u32,
    pub buffer: usize,
    pub place: usize,
}

/// A refusal with nothing beside its number; with number 0 it says that nothing is refused.
pub fn plain(number: u32) -> Refusal {
    Refusal {
        number,
        buffer: 0,
        place: 0,
    }
}

/// Check 5: of all places of these buffers that hold more than 1, the least, by buffer and then by place.
fn only_bits(buffers: &[&[u8]]) -> Result<(), Refusal> {
    let places = buffers
        .iter()
        .enumerate()
        .flat_map(|(buffer, bits)| (0..bits.len()).map(move |place| (buffer, place)));
    let bad = places.filter(|(buffer, place)| buffers[*buffer][*place] > 1);
    bad.min().map_or(Ok(()), |(buffer, place)| {
        Err(Refusal {
            number: 5,
            buffer,
            place,
        })
    })
}

/// Checks 1 and 2, with which every operation on (m, t) begins.
fn code_or_refusal(m: u64, t: u64) -> Result<Code, Refusal> {
    if !is_field_size(m) {
        return Err(plain(1));
    }
    listed(m, t).ok_or(plain(2))
}

/// Sizes' order is 1, 2.
pub fn sizes(m: u64, t: u64) -> Result<Code, Refusal> {
    code_or_refusal(m, t)
}

/// Describe's order is 1, 2, 4.
pub fn describe(m: u64, t: u64, generator_places: usize) -> Result<Code, Refusal> {
    let code = code_or_refusal(m, t)?;
    if generator_places != code.n - code.k + 1 {
        return Err(plain(4));
    }
    Ok(code)
}

/// Encode's order is 1, 2, 3, 4, 5.
pub fn encode(m: u64, t: u64, message: &[u8], word_places: usize) -> Result<Code, Refusal> {
    let code = code_or_refusal(m, t)?;
    if message.len() != code.k {
        return Err(plain(3));
    }
    if word_places != code.n {
        return Err(plain(4));
    }
    only_bits(&[message])?;
    Ok(code)
}

/// Decode's order is 1, 2, 3, 4, 5; 6 is the decoder's.
pub fn decode(
    m: u64,
    t: u64,
    received: &[u8],
    word_places: usize,
    list_places: usize,
) -> Result<Code, Refusal> {
    let code = code_or_refusal(m, t)?;
    if received.len() != code.n {
        return Err(plain(3));
    }
    if word_places != code.n || list_places != code.t {
        return Err(plain(4));
    }
    only_bits(&[received])?;
    Ok(code)
}

/// Edit's order is 1, 2, 3, 12, 5.
pub fn edit(m: u64, t: u64, word: &[u8], start: u64, stretch: &[u8]) -> Result<Code, Refusal> {
    let code = code_or_refusal(m, t)?;
    if word.len() != code.n {
        return Err(plain(3));
    }
    if runs_past(start, stretch, code.k) {
        return Err(plain(12));
    }
    only_bits(&[word, stretch])?;
    Ok(code)
}

/// Open's order is 1, 2, 3, 5.
pub fn open(m: u64, t: u64, word: &[u8]) -> Result<Code, Refusal> {
    let code = code_or_refusal(m, t)?;
    if word.len() != code.n {
        return Err(plain(3));
    }
    only_bits(&[word])?;
    Ok(code)
}

/// Splice's order is 1, 2, 7, 12, 5.
pub fn splice(record: &Kept, start: u64, stretch: &[u8]) -> Result<Code, Refusal> {
    let code = kept_code(record)?;
    if runs_past(start, stretch, code.n) {
        return Err(plain(12));
    }
    only_bits(&[stretch])?;
    Ok(code)
}

/// Decode kept's order is 1, 2, 7, 4; 6 is the decoder's.
pub fn decode_kept(record: &Kept, word_places: usize, list_places: usize) -> Result<Code, Refusal> {
    let code = kept_code(record)?;
    if word_places != code.n || list_places != code.t {
        return Err(plain(4));
    }
    Ok(code)
}

/// The order of looking at a book is 13, 14. What is no book is refused 14 where the mark and the last number are right, and 13 where they are not.
pub fn look_at_book(book: &[u8]) -> Result<usize, Refusal> {
    let number = if book::is_marked(book) { 14 } else { 13 };
    book::count(book).ok_or(plain(number))
}

/// The order of reading a book is 13, 14, 15.
pub fn read_book(book: &[u8], i: u64) -> Result<usize, Refusal> {
    let count = look_at_book(book)?;
    if i >= count as u64 {
        return Err(plain(15));
    }
    Ok(count)
}

/// The order of writing a book is 14, 9, 4.
pub fn write_book(frames: &[u8], book_bytes: usize) -> Result<(), Refusal> {
    if frames.len() > MOST_FRAMES * FRAME_BYTES {
        return Err(plain(14));
    }
    if !frames.chunks_exact(FRAME_BYTES).remainder().is_empty() {
        return Err(plain(9));
    }
    if book_bytes != frames.len() + TRAILER_BYTES {
        return Err(plain(4));
    }
    Ok(())
}

/// Checks 1, 2 and 7.
fn kept_code(record: &Kept) -> Result<Code, Refusal> {
    let code = code_or_refusal(record.m, record.t)?;
    let bad_bit = record.bits[..code.n].iter().any(|bit| *bit > 1);
    let bad_sum = record.sums[..code.t]
        .iter()
        .any(|sum| usize::from(*sum) > code.n);
    if bad_bit || bad_sum {
        return Err(plain(7));
    }
    Ok(code)
}

/// In numbers wide enough that nothing wraps.
fn runs_past(start: u64, stretch: &[u8], end: usize) -> bool {
    u128::from(start) + stretch.len() as u128 > end as u128
}
