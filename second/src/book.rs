//! The poll book: frames one after another and a trailer behind them, which is found by comparing the end of a book with every trailer that there is.

use crate::frames::FRAME_BYTES;
use std::ops::Range;

pub const MOST_FRAMES: usize = 1_000;
pub const TRAILER_BYTES: usize = 16;

const MARK: [u8; 4] = *b"POLL";
const END: [u8; 4] = [0; 4];

/// The mark, the count, the distance back to the first frame, and zero.
fn trailer(count: usize) -> Vec<u8> {
    let number = |x: usize| {
        let number = u32::try_from(x).expect("a book has at most 1,000 frames");
        number.to_be_bytes()
    };
    [MARK, number(count), number(count * FRAME_BYTES), END].concat()
}

/// The frames and their trailer.
pub fn written(frames: &[u8]) -> Vec<u8> {
    [frames, &trailer(frames.len() / FRAME_BYTES)].concat()
}

/// The count whose trailer the book ends with and whose frames it has room for; no two counts have the same trailer.
pub fn count(book: &[u8]) -> Option<usize> {
    (0..=MOST_FRAMES).find(|count| {
        book.ends_with(&trailer(*count)) && book.len() >= count * FRAME_BYTES + TRAILER_BYTES
    })
}

/// Whether the mark and the last number are those of a trailer, whatever stands between them.
pub fn is_marked(book: &[u8]) -> bool {
    book.last_chunk::<TRAILER_BYTES>()
        .is_some_and(|trailer| trailer.starts_with(&MARK) && trailer.ends_with(&END))
}

/// Where each frame of a book stands, counted back from the trailer.
pub fn places(book_bytes: usize, count: usize) -> Vec<Range<usize>> {
    let end = book_bytes - TRAILER_BYTES;
    let starts = (1..=count).rev().map(|back| end - back * FRAME_BYTES);
    starts.map(|start| start..start + FRAME_BYTES).collect()
}

#[cfg(test)]
mod tests {
    use crate::answers::Answers;
    use crate::sheet::plain;

    /// So many zeros, then a trailer with this mark and these numbers.
    fn book(before: usize, mark: &[u8], numbers: [u32; 3]) -> Vec<u8> {
        let numbers = numbers.map(u32::to_be_bytes).concat();
        [&vec![0; before], mark, &numbers].concat()
    }

    #[test]
    fn a_book_is_the_frames_and_the_trailer() {
        let answers = Answers::default();
        let two = [80, 79, 76, 76, 0, 0, 0, 2, 0, 0, 0, 64, 0, 0, 0, 0];
        let expected = [vec![7; 64], two.to_vec()].concat();
        assert_eq!(answers.write_book(&[7; 64], 80), Ok(expected));
        let none = [80, 79, 76, 76, 0, 0, 0, 0, 0, 0, 0, 0, 0, 0, 0, 0];
        assert_eq!(answers.write_book(&[], 16), Ok(none.to_vec()));
        let most = [80, 79, 76, 76, 0, 0, 3, 232, 0, 0, 125, 0, 0, 0, 0, 0];
        let expected = [vec![255; 32_000], most.to_vec()].concat();
        assert_eq!(answers.write_book(&[255; 32_000], 32_016), Ok(expected));
    }

    #[test]
    fn writing_is_refused_in_order() {
        let answers = Answers::default();
        for (length, room, number) in [
            (32_001, 32_017, 14),
            (32_032, 32_048, 14),
            (32_001, 16, 14),
            (1, 17, 9),
            (31, 47, 9),
            (33, 49, 9),
            (31_999, 32_016, 9),
            (33, 48, 9),
            (32, 47, 4),
            (32, 49, 4),
            (32, 32, 4),
            (0, 0, 4),
            (32_000, 32_000, 4),
        ] {
            let answer = answers.write_book(&vec![0; length], room);
            assert_eq!(answer, Err(plain(number)), "{length} into {room}");
        }
    }

    #[test]
    fn frames_are_found_behind_other_bytes() {
        let answers = Answers::default();
        let book = book(33 + 64, b"POLL", [2, 64, 0]);
        assert_eq!(answers.look_at_book(&book), Ok(2));
        assert_eq!(answers.read_book(&book, 0), Ok(33..65));
        assert_eq!(answers.read_book(&book, 1), Ok(65..97));
        for i in [2, 3, 1 << 32, 1 << 59, u64::MAX] {
            assert_eq!(answers.read_book(&book, i), Err(plain(15)), "frame {i}");
        }
    }

    #[test]
    fn the_largest_book_has_a_thousand_frames() {
        let answers = Answers::default();
        let book = book(32_000, b"POLL", [1_000, 32_000, 0]);
        assert_eq!(answers.look_at_book(&book), Ok(1_000));
        assert_eq!(answers.read_book(&book, 999), Ok(31_968..32_000));
        assert_eq!(answers.read_book(&book, 1_000), Err(plain(15)));
    }

    #[test]
    fn a_bare_trailer_is_a_book_without_frames() {
        let answers = Answers::default();
        let book = book(0, b"POLL", [0, 0, 0]);
        assert_eq!(answers.look_at_book(&book), Ok(0));
        for i in [0, 1, 1 << 59, u64::MAX] {
            assert_eq!(answers.read_book(&book, i), Err(plain(15)), "frame {i}");
        }
    }

    #[test]
    fn what_has_no_trailer_is_refused_13() {
        let answers = Answers::default();
        let good = book(64, b"POLL", [2, 64, 0]);
        let mut others = vec![vec![], good[65..].to_vec(), [&good[..], &[0]].concat()];
        for place in (64..68).chain(76..80) {
            let mut other = good.clone();
            other[place] ^= 32;
            others.push(other);
        }
        others.push(book(64, b"LLOP", [1 << 27, 0, 0]));
        others.push(book(0, b"POLL", [u32::MAX; 3]));
        for other in others {
            let end = &other[other.len().saturating_sub(16)..];
            assert_eq!(answers.look_at_book(&other), Err(plain(13)), "{end:?}");
            assert_eq!(answers.read_book(&other, 2), Err(plain(13)), "{end:?}");
        }
    }

    #[test]
    fn numbers_of_no_book_are_refused_14() {
        let answers = Answers::default();
        for (before, count, distance) in [
            (32_032, 1_001, 32_032),
            (0, 1 << 27, 0),
            (0, u32::MAX, u32::MAX),
            (96, 2, 65),
            (96, 2, 32),
            (96, 2, 96),
            (96, 2, 0),
            (96, 0, 32),
            (63, 2, 64),
            (0, 2, 64),
            (64, 2 << 24, 64 << 24),
        ] {
            let other = book(before, b"POLL", [count, distance, 0]);
            let said = format!("{before} bytes, count {count}, distance {distance}");
            assert_eq!(answers.look_at_book(&other), Err(plain(14)), "{said}");
            assert_eq!(
                answers.read_book(&other, u64::MAX),
                Err(plain(14)),
                "{said}"
            );
        }
    }
}
