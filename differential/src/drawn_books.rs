//! Random poll books, whole and with faults, and what else the calls on books need.

use crate::draw::Draw;
use crate::drawing::FAULT;
use second::book::{MOST_FRAMES, TRAILER_BYTES};
use second::frames::FRAME_BYTES;

/// Mostly a few frames, now and then as many as a book takes or about so many.
pub fn count(draw: &mut Draw) -> usize {
    let few = draw.below(20);
    let any = draw.below(MOST_FRAMES + 1);
    draw.pick(&[0, 1, 2, few, few, few, any, MOST_FRAMES - 1, MOST_FRAMES])
}

/// A book of so many frames, often with bytes before them, its trailer or its ends now and then wrong; or random bytes.
pub fn book(draw: &mut Draw, count: usize) -> Vec<u8> {
    let any = draw.below(100);
    if draw.one_in(FAULT) {
        return draw.bytes(any);
    }
    let before = draw.pick(&[0, 1, FRAME_BYTES, any]);
    let mut book = draw.bytes(before + count * FRAME_BYTES);
    book.extend(trailer(draw, count as u32));
    cut(draw, &mut book);
    book
}

/// The trailer of so many frames, or with wrong numbers, with a wrong byte, or with both.
fn trailer(draw: &mut Draw, count: u32) -> Vec<u8> {
    let (count, distance) = count_and_distance(draw, count);
    let numbers = [u32::from_be_bytes(*b"POLL"), count, distance, 0];
    let mut bytes = numbers.map(u32::to_be_bytes).concat();
    if draw.one_in(FAULT) {
        bytes[draw.below(TRAILER_BYTES)] ^= 1 << draw.below(8);
    }
    bytes
}

/// The count and the distance of so many frames, or of another count, where the distance may wrap; then either may be wrong by itself.
fn count_and_distance(draw: &mut Draw, right: u32) -> (u32, u32) {
    let frame = FRAME_BYTES as u32;
    let any = draw.number() as u32;
    let mut count = right;
    if draw.one_in(FAULT) {
        let others = [right + 1, MOST_FRAMES as u32 + 1, right + (1 << 27), any];
        count = draw.pick(&others);
    }
    let mut distance = count.wrapping_mul(frame);
    if draw.one_in(FAULT) {
        let (more, less) = (distance.wrapping_add(1), distance.wrapping_sub(frame));
        distance = draw.pick(&[more, less, distance.swap_bytes(), u32::MAX, any]);
    }
    if draw.one_in(FAULT) {
        let (more, less) = (count.wrapping_add(1), count.wrapping_sub(1));
        count = draw.pick(&[more, less, count.swap_bytes(), u32::MAX, any]);
    }
    (count, distance)
}

/// Now and then cuts off the front, also down to a piece of the trailer, and now and then moves the end.
fn cut(draw: &mut Draw, book: &mut Vec<u8>) {
    if draw.one_in(FAULT) {
        let length = book.len();
        let any = draw.below(length);
        let all_but_a_piece = length - draw.below(TRAILER_BYTES);
        let front = draw.pick(&[1, FRAME_BYTES.min(length), any, all_but_a_piece]);
        book.drain(..front);
    }
    if draw.one_in(FAULT) {
        let length = book.len();
        let other = draw.pick(&[length.saturating_sub(1), length + 1, length + TRAILER_BYTES]);
        book.resize(other, 0);
    }
}

/// A frame of so many, or now and then one past them, also where its offset would wrap.
pub fn frame_number(draw: &mut Draw, count: usize) -> usize {
    let inside = draw.below(count.max(1));
    if !draw.one_in(FAULT) {
        return inside;
    }
    let any = draw.number() as usize;
    let wrapped = (1 << 59) + inside;
    draw.pick(&[count, count + 1, 1 << 32, 1 << 59, wrapped, any, usize::MAX])
}

/// How many bytes of frames are to be written: whole frames, or now and then not, or too many.
pub fn frames_length(draw: &mut Draw) -> usize {
    let mut frames = count(draw);
    if draw.one_in(FAULT) {
        frames = MOST_FRAMES + 1 + draw.below(20);
    }
    let mut length = frames * FRAME_BYTES;
    if draw.one_in(FAULT) {
        let any = 1 + draw.below(FRAME_BYTES - 1);
        length += draw.pick(&[1, FRAME_BYTES - 1, any]);
    }
    length
}
