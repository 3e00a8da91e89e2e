//! The programs on poll books: what booking writes of frames and what book_listing writes of a book.

use crate::answers::Answers;
use crate::book::{self, TRAILER_BYTES};
use crate::frames::Link;
use crate::sheet::Refusal;

/// The program book_listing has room for so many bytes.
const LISTING_ROOM: usize = 65_536;

/// What goes to standard output and what to standard error.
#[derive(Debug, PartialEq)]
pub struct Written {
    pub output: Vec<u8>,
    pub messages: String,
}

/// The book of these frames, or the refusal as a message.
pub fn booking(frames: &[u8]) -> Written {
    match Answers::default().write_book(frames, frames.len() + TRAILER_BYTES) {
        Ok(book) => without_message(book),
        Err(refusal) => Written {
            output: vec![],
            messages: refused(refusal),
        },
    }
}

/// The lines of a book's frames, or the refusal as a line; of what is too long, a message alone.
pub fn book_listing(book: &[u8]) -> Written {
    if book.len() > LISTING_ROOM {
        let message = "book_listing: the input is longer than 65,536 bytes; nothing is listed\n";
        return Written {
            output: vec![],
            messages: String::from(message),
        };
    }
    let count = Answers::default().look_at_book(book);
    let lines = count.map_or_else(refused, |count| listing(book, count));
    without_message(lines.into_bytes())
}

fn listing(book: &[u8], count: usize) -> String {
    let places = book::places(book.len(), count);
    let frames: Vec<&[u8]> = places.into_iter().map(|place| &book[place]).collect();
    Link::default().listing(&frames.concat())
}

fn without_message(output: Vec<u8>) -> Written {
    Written {
        output,
        messages: String::new(),
    }
}

fn refused(refusal: Refusal) -> String {
    format!("refused {}\n", refusal.number)
}

#[cfg(test)]
mod tests {
    use super::{book_listing, booking, Link, Written};
    use crate::frames::Reading;

    fn written(output: &[u8], messages: &str) -> Written {
        Written {
            output: output.to_vec(),
            messages: String::from(messages),
        }
    }

    #[test]
    fn frames_are_booked_or_the_refusal_is_a_message() {
        let empty = b"POLL\0\0\0\0\0\0\0\0\0\0\0\0";
        assert_eq!(booking(&[]), written(empty, ""));
        assert_eq!(booking(&[0; 33]), written(&[], "refused 9\n"));
        assert_eq!(booking(&[0; 32_001]), written(&[], "refused 14\n"));
    }

    #[test]
    fn a_book_is_listed_or_the_refusal_is_its_line() {
        let reading = Reading {
            house: 1,
            poll: 2,
            counter: 3,
        };
        let mut frames = Link::default().make(reading).repeat(2);
        frames[32 + 5] ^= 129;
        let book = [vec![9; 5], booking(&frames).output].concat();
        let lines = b"1 read 1 2 3 0\n2 read 1 2 3 2\n";
        assert_eq!(book_listing(&book), written(lines, ""));
        assert_eq!(book_listing(&book[5..]), written(lines, ""));
        assert_eq!(book_listing(&book[6..]), written(b"refused 14\n", ""));
        assert_eq!(book_listing(&[]), written(b"refused 13\n", ""));
        assert_eq!(book_listing(&booking(&[]).output), written(b"", ""));
    }

    #[test]
    fn an_input_that_is_too_long_is_not_listed() {
        let longest = [vec![0; 65_520], booking(&[]).output].concat();
        assert_eq!(book_listing(&longest), written(b"", ""));
        let message = "book_listing: the input is longer than 65,536 bytes; nothing is listed\n";
        assert_eq!(book_listing(&[0; 65_537]), written(b"", message));
    }
}
