//! Nights of made-up readings as they might come in, most frames clean, some with a few wrong bits, some beyond mending, some of a line that is stuck; and books of such frames.

use crate::book::{written, MOST_FRAMES};
use crate::frames::{Link, Reading, FRAME_BYTES};
use crate::made_up::MadeUp;

const HOUSES: u16 = 40;
const POLLS: u16 = 5;

/// The frames of all houses, poll by poll, for so many nights, and a piece of a last one.
pub fn frames(nights: u16) -> Vec<u8> {
    let link = Link::default();
    let mut made_up = MadeUp::new(20261115);
    let mut bytes = Vec::new();
    for poll in 1..=nights * POLLS {
        for house in 0..HOUSES {
            bytes.extend(frame(&link, house, poll, &mut made_up));
        }
    }
    bytes.extend([0; 7]);
    bytes
}

/// The whole frames of a night as a book.
pub fn book() -> Vec<u8> {
    let count = usize::from(HOUSES * POLLS);
    written(&frames(1)[..count * FRAME_BYTES])
}

/// As many frames of six nights as a book takes, with a line of text before them, which is not looked at.
pub fn full_book() -> Vec<u8> {
    let book = written(&frames(6)[..MOST_FRAMES * FRAME_BYTES]);
    [b"ridge link, six nights\n", &book[..]].concat()
}

/// So many frames of made-up readings, each with exactly so many wrong bits.
pub fn spoiled(count: u32, wrong: usize) -> Vec<u8> {
    let link = Link::default();
    let mut made_up = MadeUp::new(20261115);
    let mut bytes = Vec::new();
    for number in 0..count {
        let house = (number % (1 << 16)) as u16;
        let reading = Reading {
            house,
            poll: (number >> 16) as u16,
            counter: counter(house, &mut made_up),
        };
        let mut frame = link.make(reading);
        flip(&mut frame, wrong, wrong, &mut made_up);
        bytes.extend(frame);
    }
    bytes
}

fn frame(link: &Link, house: u16, poll: u16, made_up: &mut MadeUp) -> [u8; FRAME_BYTES] {
    let reading = Reading {
        house: house * 1021,
        poll,
        counter: counter(house, made_up),
    };
    let mut frame = link.make(reading);
    match made_up.below(10) {
        0 | 1 => flip(&mut frame, 1, 5, made_up),
        2 => flip(&mut frame, 6, 23, made_up),
        3 => flip(&mut frame, 24, 53, made_up),
        4 if house % 4 == 1 => frame[FRAME_BYTES - 1] |= 1,
        4 if house % 4 == 2 => frame = stuck_at_one(),
        4 if house % 4 == 3 => frame = stuck_at_zero(house, poll),
        _ => {}
    }
    frame
}

/// Houses 0 and 1 have the least and the greatest count there is.
fn counter(house: u16, made_up: &mut MadeUp) -> u64 {
    match house {
        0 => 0,
        1 => u64::MAX,
        _ => made_up.below(1 << 15) as u64 * made_up.below(1 << 15) as u64 * 1000003,
    }
}

/// Turns over from `least` to `most` of the 255 sent bits.
fn flip(frame: &mut [u8; FRAME_BYTES], least: usize, most: usize, made_up: &mut MadeUp) {
    let count = least + made_up.below(most - least + 1);
    let mut bits = vec![0; 255];
    made_up.flip(&mut bits, count);
    for (sent, bit) in bits.iter().enumerate() {
        frame[sent / 8] ^= bit << (7 - sent % 8);
    }
}

/// A line stuck at one while the 255 bits of a word come in.
fn stuck_at_one() -> [u8; FRAME_BYTES] {
    let mut frame = [255; FRAME_BYTES];
    frame[FRAME_BYTES - 1] = 254;
    frame
}

/// A line stuck at zero, as it is or with a few changed bits. They are drawn apart, so that a stuck line moves no draw of the frames after it.
fn stuck_at_zero(house: u16, poll: u16) -> [u8; FRAME_BYTES] {
    let mut frame = [0; FRAME_BYTES];
    let mut made_up = MadeUp::new(u64::from(poll * HOUSES + house));
    flip(&mut frame, 0, 5, &mut made_up);
    frame
}

#[cfg(test)]
mod tests {
    use super::*;
    use crate::book::count;

    #[test]
    fn the_books_have_all_their_frames() {
        let book = book();
        assert_eq!((book.len(), count(&book)), (6_416, Some(200)));
        assert!(frames(1).starts_with(&book[..6_400]));
        let book = full_book();
        assert_eq!((book.len(), count(&book)), (32_039, Some(1_000)));
        assert!(frames(6).starts_with(&book[23..32_023]));
    }

    #[test]
    fn stuck_lines_are_refused() {
        let link = Link::default();
        assert_eq!(link.read(&stuck_at_one()), Err(11));
        for house in 0..HOUSES {
            assert_eq!(link.read(&stuck_at_zero(house, 1)), Err(11));
        }
    }

    #[test]
    fn spoiled_frames_have_so_many_wrong() {
        let link = Link::default();
        for wrong in [0, 5, 23] {
            let bytes = spoiled(20, wrong);
            assert_eq!(bytes.len(), 20 * FRAME_BYTES);
            for frame in bytes.chunks(FRAME_BYTES) {
                assert_eq!(link.read(frame).map(|read| read.1), Ok(wrong));
            }
        }
    }
}
