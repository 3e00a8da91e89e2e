//! The poll book.

use crate::library;
use crate::refusal::Refusal;

/// The bytes of a poll book's trailer.
pub const TRAILER_BYTES: usize = 16;

/// The most frames that a poll book holds.
pub const BOOK_FRAMES: usize = 1000;

/// How many frames a poll book holds.
///
/// A book is frames of 32 bytes one after another as they were received, at most 1,000 of them, and after them a trailer, which is always its last 16 bytes. The trailer has the four bytes `POLL` and then three 32-bit numbers, highest byte first: the count of the frames, the distance in bytes from the trailer's first byte back to the first frame, and 0. Other bytes may stand before the first frame; they are not looked at. Checks: 13, 14.
///
/// ```
/// use blentovar::{look_at_book, Refusal};
/// assert_eq!(look_at_book(b"POLL\0\0\0\0\0\0\0\0\0\0\0\0"), Ok(0));
/// assert_eq!(look_at_book(b"POLL"), Err(Refusal::NoTrailer));
/// ```
pub fn look_at_book(book: &[u8]) -> Result<usize, Refusal> {
    let answer = library::look_at_book(book);
    Refusal::check(answer.number).map(|()| answer.count)
}

/// Frame i of a poll book, the first one being frame 0. What is given is a part of the book that was lent; nothing is copied. Checks: 13, 14, 15.
///
/// ```
/// use blentovar::{frame_of, read_book, read_frame, write_book, Reading, Refusal};
/// let reading = Reading { house: 12, poll: 1, counter: 34_567 };
/// let mut book = [0; 48];
/// write_book(&frame_of(reading), &mut book)?;
/// let frame = read_book(&book, 0)?;
/// assert_eq!(read_frame(frame)?.reading, reading);
/// assert_eq!(read_book(&book, 1), Err(Refusal::NoSuchFrame));
/// # Ok::<(), Refusal>(())
/// ```
pub fn read_book(book: &[u8], i: usize) -> Result<&[u8], Refusal> {
    let answer = library::read_book(book, i);
    Refusal::check(answer.number).map(|()| &book[answer.offset..][..answer.length])
}

/// Puts the poll book of frames of 32 bytes, at most 1,000 of them one after another, into a buffer of as many bytes and 16 more. What the frames hold is not looked at. Checks: 14, 9, 4.
///
/// ```
/// use blentovar::{write_book, Refusal, TRAILER_BYTES};
/// let frames = [7; 64];
/// let mut book = vec![0; frames.len() + TRAILER_BYTES];
/// write_book(&frames, &mut book)?;
/// assert_eq!(book[..64], frames);
/// assert_eq!(book[64..], *b"POLL\0\0\0\x02\0\0\0\x40\0\0\0\0");
/// assert_eq!(write_book(&frames[1..], &mut book), Err(Refusal::FrameLength));
/// # Ok::<(), Refusal>(())
/// ```
pub fn write_book(frames: &[u8], book: &mut [u8]) -> Result<(), Refusal> {
    Refusal::check(library::write_book(frames, book))
}
