//! Each refusal, and of two faults or more the one that is checked first. Records and words are of m 4 and t 3 where nothing else is said.

use blentovar::{
    decode, describe, edit, encode, look_at_book, make_frame, read_book, read_frame, sizes,
    write_book, Kept, Reading, Refusal,
};

/// The number of an answer, 0 where nothing is refused.
fn number<T>(answer: Result<T, Refusal>) -> u32 {
    answer.map_or_else(Refusal::number, |_| 0)
}

#[test]
fn sizes_refuses_in_order() {
    let sizing = |(m, t)| number(sizes(m, t));
    assert_eq!(sizing((4, 3)), 0);
    assert_eq!([(2, 1), (11, 1), (usize::MAX, 1)].map(sizing), [1; 3]);
    let unlisted = [(4, 0), (4, 4), (7, 8), (10, 256), (3, 3), (4, 7)];
    assert_eq!(unlisted.map(sizing), [2; 6]);
    assert_eq!([(4, 259), (10, usize::MAX)].map(sizing), [2; 2]);
    assert_eq!(sizing((2, 0)), 1);
}

#[test]
fn describe_refuses_in_order() {
    let describing = |m, t, places| {
        let mut generator = vec![7; places];
        let answer = number(describe(m, t, &mut generator));
        assert!(answer == 0 || generator.iter().all(|bit| *bit == 7));
        answer
    };
    assert_eq!(describing(4, 3, 11), 0);
    assert_eq!(
        [(2, 1, 4), (11, 1, 12)].map(|(m, t, n)| describing(m, t, n)),
        [1; 2]
    );
    let unlisted = [(4, 0, 1), (4, 4, 15), (7, 8, 57), (10, 256, 1013)];
    assert_eq!(unlisted.map(|(m, t, n)| describing(m, t, n)), [2; 4]);
    assert_eq!([0, 10, 12].map(|places| describing(4, 3, places)), [4; 3]);
    assert_eq!(describing(2, 0, 4), 1);
    assert_eq!(describing(4, 4, 0), 2);
}

#[test]
fn encode_refuses_in_order() {
    let encoding = |m, t, message: &[u8], places| {
        let mut word = vec![7; places];
        let answer = number(encode(m, t, message, &mut word));
        assert!(answer == 0 || word.iter().all(|bit| *bit == 7));
        answer
    };
    assert_eq!(encoding(4, 3, &[1; 5], 15), 0);
    assert_eq!(encoding(11, 0, &[1; 5], 15), 1);
    assert_eq!(encoding(4, 4, &[1; 6], 15), 2);
    assert_eq!(encoding(4, 3, &[1; 4], 14), 3);
    assert_eq!(encoding(4, 3, &[], 15), 3);
    assert_eq!(encoding(4, 3, &[2; 5], 16), 4);
    assert_eq!(encoding(4, 3, &[1, 1, 1, 1, 2], 15), 5);
}

#[test]
fn decode_refuses_in_order() {
    let decoding = |m, t, received: &[u8], places, list_places| {
        let (mut word, mut list) = (vec![7; places], vec![7; list_places]);
        let answer = number(decode(m, t, received, &mut word, &mut list));
        assert!(answer == 0 || word.iter().all(|bit| *bit == 7));
        assert!(answer == 0 || list.iter().all(|place| *place == 7));
        answer
    };
    let far = [1, 1, 1, 1, 0, 0, 0, 0, 0, 0, 0, 0, 0, 0, 0];
    let mut far_and_bad = far;
    far_and_bad[14] = 2;
    assert_eq!(decoding(4, 3, &[1; 15], 15, 3), 0);
    assert_eq!(decoding(2, 0, &[1; 15], 15, 3), 1);
    assert_eq!(decoding(4, 4, &[1; 14], 15, 4), 2);
    assert_eq!(decoding(4, 3, &[1; 14], 14, 3), 3);
    assert_eq!(decoding(4, 3, &far_and_bad, 14, 3), 4);
    assert_eq!(decoding(4, 3, &far_and_bad, 15, 4), 4);
    assert_eq!(decoding(4, 3, &far_and_bad, 15, 3), 5);
    assert_eq!(decoding(4, 3, &far, 15, 3), 6);
}

#[test]
fn edit_refuses_in_order() {
    let editing = |m, t, word: &[u8], start, stretch: &[u8]| {
        let mut edited = word.to_vec();
        let answer = number(edit(m, t, &mut edited, start, stretch));
        assert!(answer == 0 || edited == word);
        answer
    };
    assert_eq!(editing(4, 3, &[0; 15], 4, &[1]), 0);
    assert_eq!(editing(2, 0, &[0; 15], 0, &[1]), 1);
    assert_eq!(editing(4, 4, &[0; 14], 0, &[1]), 2);
    assert_eq!(editing(4, 3, &[0; 14], 5, &[1]), 3);
    assert_eq!(editing(4, 3, &[2; 15], 5, &[1]), 12);
    assert_eq!(editing(4, 3, &[0; 15], usize::MAX, &[2, 2]), 12);
    assert_eq!(editing(4, 3, &[2; 15], 0, &[]), 5);
    assert_eq!(editing(4, 3, &[0; 15], 0, &[2]), 5);
}

#[test]
fn open_refuses_in_order() {
    let opening = |m, t, word: &[u8]| number(Kept::open(m, t, word));
    assert_eq!(opening(4, 3, &[1; 15]), 0);
    assert_eq!(opening(2, 0, &[1; 15]), 1);
    assert_eq!(opening(4, 4, &[1; 14]), 2);
    assert_eq!(opening(4, 3, &[2; 16]), 3);
    assert_eq!(opening(4, 3, &[]), 3);
    assert_eq!(opening(4, 3, &[2; 15]), 5);
}

/// A record of ones, whose sums are 0, with a place and a sum changed by hand.
fn record(m: usize, t: usize, bit: u8, sum: u16) -> Kept {
    let mut kept = Kept::open(4, 3, &[1; 15]).expect("the word is taken");
    (kept.m, kept.t) = (m, t);
    (kept.bits[14], kept.sums[2]) = (bit, sum);
    kept
}

#[test]
fn splice_refuses_in_order_and_leaves_the_record() {
    let splicing = |kept: Kept, start, stretch: &[u8]| {
        let mut spliced = kept.clone();
        let answer = number(spliced.splice(start, stretch));
        assert!(answer == 0 || spliced == kept);
        answer
    };
    assert_eq!(splicing(record(4, 3, 1, 15), 14, &[0]), 0);
    assert_eq!(splicing(record(4, 3, 1, 15), 15, &[]), 0);
    assert_eq!(splicing(record(2, 0, 1, 0), 0, &[1]), 1);
    assert_eq!(splicing(record(4, 4, 2, 0), 0, &[1]), 2);
    assert_eq!(splicing(record(4, 3, 2, 0), 15, &[1]), 7);
    assert_eq!(splicing(record(4, 3, 1, 16), 15, &[1]), 7);
    assert_eq!(splicing(record(4, 3, 1, 0), 15, &[2]), 12);
    assert_eq!(splicing(record(4, 3, 1, 0), usize::MAX, &[2, 2]), 12);
    assert_eq!(splicing(record(4, 3, 1, 0), 16, &[]), 12);
    assert_eq!(splicing(record(4, 3, 1, 0), 0, &[2]), 5);
}

#[test]
fn decode_kept_refuses_in_order() {
    let decoding = |kept: Kept, places, list_places| {
        let (mut word, mut list) = (vec![7; places], vec![7; list_places]);
        let answer = number(kept.decode(&mut word, &mut list));
        assert!(answer == 0 || word.iter().all(|bit| *bit == 7));
        assert!(answer == 0 || list.iter().all(|place| *place == 7));
        answer
    };
    let mut far = record(4, 3, 0, 1);
    far.sums[..2].copy_from_slice(&[15, 15]);
    assert_eq!(decoding(record(4, 3, 1, 0), 15, 3), 0);
    assert_eq!(decoding(record(2, 0, 1, 0), 15, 3), 1);
    assert_eq!(decoding(record(4, 4, 2, 0), 15, 4), 2);
    assert_eq!(decoding(record(4, 3, 2, 0), 14, 3), 7);
    assert_eq!(decoding(record(4, 3, 1, 16), 15, 4), 7);
    assert_eq!(decoding(far.clone(), 14, 3), 4);
    assert_eq!(decoding(far.clone(), 15, 4), 4);
    assert_eq!(decoding(far, 15, 3), 6);
}

#[test]
fn making_a_frame_refuses_other_lengths() {
    let reading = Reading {
        house: 1,
        poll: 2,
        counter: 3,
    };
    for length in [0, 31, 33] {
        let mut frame = vec![7; length];
        assert_eq!(number(make_frame(reading, &mut frame)), 9);
        assert_eq!(frame, vec![7; length]);
    }
}

/// The number that is due where each check has its number or, where it passes, 0.
fn first_of(checks: &[u32]) -> u32 {
    *checks.iter().find(|number| **number != 0).unwrap_or(&0)
}

/// A frame of made-up fields whose word is encoded with this lead, its first sent bit the highest.
fn frame_with_lead(lead: u8) -> Vec<u8> {
    let mut message: Vec<u8> = (0..96).map(|place| u8::from(place % 3 == 0)).collect();
    message.extend([0, 1, 2].map(|place| lead >> place & 1));
    let mut word = [0; 255];
    encode(8, 23, &message, &mut word).expect("the message is taken");
    let mut frame = vec![0; 32];
    for (place, bit) in word.iter().enumerate() {
        let sent = 254 - place;
        frame[sent / 8] |= bit << (7 - sent % 8);
    }
    frame
}

/// What is changed in the first bytes of a frame, and the number that it is refused by: nothing, 23 bits, and 24, which leave no code word near, as the second program finds too.
const CHANGES: [(&[u8], u32); 5] = [
    (&[], 0),
    (&[64; 23], 0),
    (&[255, 255, 254], 0),
    (&[64; 24], 6),
    (&[255, 255, 255], 6),
];

#[test]
fn reading_a_frame_refuses_in_order() {
    assert_eq!(number(read_frame(&[])), 9);
    for lead in 0..8 {
        let of_lead = if lead == 0b101 { 0 } else { 11 };
        for (changes, of_changes) in CHANGES {
            for (pad, of_pad) in [(0, 0), (1, 10)] {
                let mut frame = frame_with_lead(lead);
                for (byte, change) in frame.iter_mut().zip(changes) {
                    *byte ^= change;
                }
                frame[31] |= pad;
                let due = first_of(&[of_pad, of_changes, of_lead]);
                assert_eq!(number(read_frame(&frame)), due, "{lead} {changes:?} {pad}");
                assert_eq!(number(read_frame(&frame[..31])), 9);
                frame.push(pad);
                assert_eq!(number(read_frame(&frame)), 9);
            }
        }
    }
}

/// What a line gives that is stuck at this byte, with these sent bits changed and this pad.
fn stuck(at: u8, changed: &[usize], pad: u8) -> [u8; 32] {
    let mut frame = [at; 32];
    for sent in changed {
        frame[sent / 8] ^= 128 >> (sent % 8);
    }
    frame[31] = (frame[31] & 254) | pad;
    frame
}

/// Sets of up to 23 sent bits from one of the first 13 on: neighbours, every second one, and every eleventh.
fn up_to_23_bits() -> Vec<Vec<usize>> {
    let mut sets = Vec::new();
    for step in [1, 2, 11] {
        for first in 0..13 {
            let bits = |count| (0..count).map(|i| first + step * i).collect();
            sets.extend((0..=23).map(bits));
        }
    }
    sets
}

#[test]
fn a_line_stuck_at_zero_or_at_one_is_refused() {
    // Two of the sets that make the received lead the right one.
    assert_eq!(stuck(0, &[0, 2], 0)[0] >> 5, 0b101);
    assert_eq!(stuck(255, &[1], 0)[0] >> 5, 0b101);
    for changed in up_to_23_bits() {
        for at in [0, 255] {
            for (pad, due) in [(0, 11), (1, 10)] {
                let frame = stuck(at, &changed, pad);
                assert_eq!(number(read_frame(&frame)), due, "{at} {changed:?}");
            }
        }
    }
}

/// Zeros, and after them a trailer.
fn book(before: usize, mark: &[u8], numbers: [u32; 3]) -> Vec<u8> {
    let numbers = numbers.map(u32::to_be_bytes).concat();
    [&vec![0; before][..], mark, &numbers].concat()
}

/// A mark and a last number, and the number that they are refused by.
const MARKS: [(&[u8], u32, u32); 7] = [
    (b"POLL", 0, 0),
    (b"pOLL", 0, 13),
    (b"POLM", 0, 13),
    (b"LLOP", 0, 13),
    (b"POLL", 1, 13),
    (b"POLL", 1 << 24, 13),
    (b"POL\0", 7, 13),
];

/// How many bytes stand before a trailer, its count and its distance, and the number that they are refused by: by none, by one of the three reasons for 14, by two of them and by all three.
const BOOK_SIZES: [(usize, u32, u32, u32); 17] = [
    (0, 0, 0, 0),
    (64, 2, 64, 0),
    (69, 2, 64, 0),
    (32_000, 1000, 32_000, 0),
    (32_032, 1001, 32_032, 14),
    (64, 2, 63, 14),
    (96, 2, 96, 14),
    (64, 0, 64, 14),
    (64, 2, 64 | 1 << 31, 14),
    (63, 2, 64, 14),
    (31_999, 1000, 32_000, 14),
    (0, 1 << 27, 0, 14),
    (64, 2 | 1 << 27, 64, 14),
    (64, 2 << 24, 64 << 24, 14),
    (32_000, 1001, 32_032, 14),
    (64, 2, 65, 14),
    (64, u32::MAX, u32::MAX, 14),
];

#[test]
fn looking_at_a_book_refuses_in_order() {
    let bare = book(0, b"POLL", [0; 3]);
    for length in 0..16 {
        assert_eq!(number(look_at_book(&bare[..length])), 13, "{length} bytes");
        assert_eq!(number(look_at_book(&bare[16 - length..])), 13);
    }
    for (mark, last, of_mark) in MARKS {
        for (before, count, distance, of_size) in BOOK_SIZES {
            let lent = book(before, mark, [count, distance, last]);
            let due = first_of(&[of_mark, of_size]);
            assert_eq!(number(look_at_book(&lent)), due, "{before} {count} {last}");
        }
    }
}

#[test]
fn reading_a_book_refuses_in_order() {
    assert_eq!(number(read_book(b"POLL", 0)), 13);
    assert_eq!(number(read_book(&[], usize::MAX)), 13);
    for (mark, last, of_mark) in MARKS {
        for (before, count, distance, of_size) in BOOK_SIZES {
            let lent = book(before, mark, [count, distance, last]);
            let frames = count as usize;
            for i in [0, 1, 2, 999, 1000, 1001, 1 << 32, 1 << 59, usize::MAX] {
                let of_frame = if i < frames { 0 } else { 15 };
                let due = first_of(&[of_mark, of_size, of_frame]);
                assert_eq!(number(read_book(&lent, i)), due, "{count} {last} {i}");
            }
        }
    }
}

#[test]
fn writing_a_book_refuses_in_order() {
    let writing = |frames_bytes: usize, book_bytes: usize| {
        let mut book = vec![7; book_bytes];
        let answer = number(write_book(&vec![1; frames_bytes], &mut book));
        assert!(answer == 0 || book.iter().all(|byte| *byte == 7));
        answer
    };
    let taken = [0, 32, 64, 31_968, 32_000].map(|length| (length, 0));
    let no_multiples = [1, 31, 33, 65, 31_999].map(|length| (length, 9));
    let too_many = [32_001, 32_031, 32_032, 64_000].map(|length| (length, 14));
    for (length, of_frames) in [&taken[..], &no_multiples, &too_many].concat() {
        assert_eq!(writing(length, length + 16), of_frames, "{length} bytes");
        for book_bytes in [0, 15, length, length + 15, length + 17, length + 48] {
            let due = first_of(&[of_frames, 4]);
            assert_eq!(writing(length, book_bytes), due, "{length} {book_bytes}");
        }
    }
}
