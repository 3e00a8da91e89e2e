//! The cases worked out by hand. Sets are places that hold 1.

use blentovar::{
    decode, describe, edit, encode, frame_of, look_at_book, read_book, read_frame, sizes,
    write_book, Code, Kept, Reading, Refusal, FRAME_BYTES, TRAILER_BYTES,
};

const THIRD_WORD: [usize; 8] = [0, 1, 2, 6, 9, 10, 12, 14];

fn bits(length: usize, ones: &[usize]) -> Vec<u8> {
    (0..length).map(|i| u8::from(ones.contains(&i))).collect()
}

fn encoded(t: usize, k: usize, message: &[usize]) -> Vec<u8> {
    let mut word = vec![7; 15];
    encode(4, t, &bits(k, message), &mut word).expect("the message is taken");
    word
}

/// The mended word and its list, whole.
fn decoded(m: usize, t: usize, received: &[u8]) -> Result<(Vec<u8>, Vec<u16>, usize), Refusal> {
    let (mut word, mut list) = (vec![7; received.len()], vec![7; t]);
    let wrong = decode(m, t, received, &mut word, &mut list)?;
    Ok((word, list, wrong))
}

#[test]
fn messages_encoded() {
    assert_eq!(encoded(1, 11, &[0]), bits(15, &[0, 1, 4]));
    assert_eq!(encoded(2, 7, &[0]), bits(15, &[0, 4, 6, 7, 8]));
    assert_eq!(encoded(3, 5, &[0, 2, 4]), bits(15, &THIRD_WORD));
    assert_eq!(encoded(3, 5, &[0, 1, 2, 3, 4]), vec![1; 15]);
}

#[test]
fn words_mended() {
    let mut damaged = bits(15, &THIRD_WORD);
    [0, 9, 14].iter().for_each(|place| damaged[*place] ^= 1);
    let third = (bits(15, &THIRD_WORD), vec![0, 9, 14], 3);
    assert_eq!(decoded(4, 3, &damaged), Ok(third));
    let generator = (bits(15, &[0, 1, 2, 4, 5, 8, 10]), vec![5, 8, 10], 3);
    assert_eq!(decoded(4, 3, &bits(15, &[0, 1, 2, 4])), Ok(generator));
    let fourth = (bits(15, &[0, 1, 4]), vec![4], 1);
    assert_eq!(decoded(4, 1, &bits(15, &[0, 1])), Ok(fourth));
    let shortest = (bits(7, &[0, 1, 3]), vec![3], 1);
    assert_eq!(decoded(3, 1, &bits(7, &[0, 1])), Ok(shortest));
    let second = (bits(15, &[0, 4, 6, 7, 8]), vec![7, 8], 2);
    assert_eq!(decoded(4, 2, &bits(15, &[0, 4, 6])), Ok(second));
}

#[test]
fn nothing_near() {
    let received = bits(15, &[0, 1, 2, 3]);
    assert_eq!(decoded(4, 3, &received), Err(Refusal::NothingNear));
}

#[test]
fn sums_of_opened_words() {
    let far = Kept::open(4, 3, &bits(15, &[0, 1, 2, 3])).expect("the word is taken");
    assert_eq!(far.sums[..3], [15, 15, 1]);
    let third_place = Kept::open(4, 2, &bits(15, &[3])).expect("the word is taken");
    assert_eq!(third_place.sums[..2], [8, 10]);
    assert!(third_place.sums[2..].iter().all(|sum| *sum == 0));
}

#[test]
fn splices_into_an_opened_word() {
    let mut kept = Kept::open(4, 3, &[0; 15]).expect("the word is taken");
    kept.splice(0, &[1, 1, 1, 1]).expect("it ends in time");
    let (mut word, mut list) = ([7; 15], [7; 3]);
    let refused = kept.decode(&mut word, &mut list);
    assert_eq!(refused, Err(Refusal::NothingNear));
    assert_eq!((word, list), ([7; 15], [7; 3]));
    kept.splice(3, &[0]).expect("it ends in time");
    kept.splice(4, &[1]).expect("it ends in time");
    assert_eq!(kept.decode(&mut word, &mut list), Ok(3));
    assert_eq!(list, [5, 8, 10]);
    assert_eq!(word[..], bits(15, &[0, 1, 2, 4, 5, 8, 10]));
}

#[test]
fn a_record_built_by_hand() {
    let mut kept = Kept::zeros();
    (kept.m, kept.t) = (4, 3);
    kept.sums[..3].copy_from_slice(&[3, 7, 1]);
    kept.bits[15] = 2;
    kept.sums[3] = 99;
    let mut expected = kept.clone();
    expected.bits[0] = 1;
    expected.sums[..3].copy_from_slice(&[2, 6, 0]);
    kept.splice(0, &[1])
        .expect("what stands past n and t is no fault");
    assert_eq!(kept, expected);
}

#[test]
fn the_zero_word_edited() {
    let mut word = vec![0; 15];
    edit(4, 3, &mut word, 0, &[1, 0, 1, 0, 1]).expect("it ends in time");
    assert_eq!(word, bits(15, &THIRD_WORD));
    edit(4, 3, &mut word, 5, &[]).expect("an empty stretch may start at the end");
    let past = Err(Refusal::StretchEnd);
    assert_eq!(edit(4, 3, &mut word, 5, &[1]), past);
    assert_eq!(edit(4, 3, &mut word, usize::MAX, &[1]), past);
    assert_eq!(edit(4, 3, &mut word, usize::MAX, &[]), past);
    assert_eq!(word, bits(15, &THIRD_WORD));
}

#[test]
fn sizes_of_codes() {
    let n_and_k = |code: Code| (code.n, code.k);
    assert_eq!(sizes(4, 3).map(n_and_k), Ok((15, 5)));
    assert_eq!(sizes(8, 23).map(n_and_k), Ok((255, 99)));
    assert_eq!(sizes(10, 255).map(n_and_k), Ok((1023, 11)));
    let described = describe(10, 255, &mut [0; 1013]);
    assert_eq!(described.map(n_and_k), Ok((1023, 11)));
}

/// The reading of a frame and how many places were wrong.
fn read(frame: &[u8]) -> Result<(Reading, usize), Refusal> {
    read_frame(frame).map(|received| (received.reading, received.wrong))
}

#[test]
fn the_frames_of_the_listing() {
    let mut silent = [0; 32];
    assert_eq!(read(&silent), Err(Refusal::LeadBits));
    silent[5] = 129;
    assert_eq!(read(&silent), Err(Refusal::LeadBits));
    let mut ones = [255; 32];
    assert_eq!(read(&ones), Err(Refusal::PadBit));
    ones[31] = 254;
    assert_eq!(read(&ones), Err(Refusal::LeadBits));
    assert_eq!(read(&[0; 5]), Err(Refusal::FrameLength));
}

#[test]
fn a_reading_of_zeros_is_told_from_silence() {
    let zeros = Reading {
        house: 0,
        poll: 0,
        counter: 0,
    };
    let mut frame = frame_of(zeros);
    assert_eq!(read(&frame), Ok((zeros, 0)));
    frame[5] ^= 129;
    assert_eq!(read(&frame), Ok((zeros, 2)));
    frame[5] ^= 129;
    // The first 23 bits that are sent: no bit of the lead arrives as it was.
    for (byte, change) in frame.iter_mut().zip([255, 255, 254]) {
        *byte ^= change;
    }
    assert_eq!(read(&frame), Ok((zeros, 23)));
}

#[test]
fn a_reading_comes_back_through_23_wrong_places() {
    let reading = Reading {
        house: 65535,
        poll: 1,
        counter: u64::MAX - 5,
    };
    let mut frame = frame_of(reading);
    frame[..23].iter_mut().for_each(|byte| *byte ^= 64);
    assert_eq!(read(&frame), Ok((reading, 23)));
}

/// So many frames one after another, no two of them the same.
fn frames_of(houses: u16) -> Vec<u8> {
    let frame = |house| {
        frame_of(Reading {
            house,
            poll: 7,
            counter: 1_000_003 * u64::from(house),
        })
    };
    (0..houses).flat_map(frame).collect()
}

fn written(frames: &[u8]) -> Vec<u8> {
    let mut book = vec![7; frames.len() + TRAILER_BYTES];
    write_book(frames, &mut book).expect("the frames are taken");
    book
}

#[test]
fn the_trailers_of_books() {
    assert_eq!(written(&[]), b"POLL\0\0\0\0\0\0\0\0\0\0\0\0");
    let trailers: [(u16, [u8; 8]); 4] = [
        (1, [0, 0, 0, 1, 0, 0, 0, 32]),
        (8, [0, 0, 0, 8, 0, 0, 1, 0]),
        (256, [0, 0, 1, 0, 0, 0, 32, 0]),
        (1000, [0, 0, 3, 232, 0, 0, 125, 0]),
    ];
    for (count, numbers) in trailers {
        let frames = frames_of(count);
        let trailer = [&b"POLL"[..], &numbers, &[0; 4]].concat();
        assert_eq!(written(&frames), [frames, trailer].concat());
    }
}

#[test]
fn a_written_book_reads_back_frame_for_frame() {
    for count in [0, 1, 2, 255, 256, 1000] {
        let frames = frames_of(count);
        let book = written(&frames);
        let count = usize::from(count);
        assert_eq!(look_at_book(&book), Ok(count));
        for (i, frame) in frames.chunks(FRAME_BYTES).enumerate() {
            assert_eq!(read_book(&book, i), Ok(frame));
        }
        assert_eq!(read_book(&book, count), Err(Refusal::NoSuchFrame));
    }
}

#[test]
fn a_frame_that_is_read_stands_in_the_lent_book() {
    let book = written(&frames_of(3));
    // Before it stand so many of the last bytes of a book, which are not looked at.
    for before in [0, 1, 5, 31, 32, 33, book.len()] {
        let lent = [&book[book.len() - before..], &book].concat();
        assert_eq!(look_at_book(&lent), Ok(3));
        for i in 0..3 {
            let frame = read_book(&lent, i).expect("there is such a frame");
            let place = before + FRAME_BYTES * i;
            let stands = &lent[place..place + FRAME_BYTES];
            assert_eq!(frame.as_ptr_range(), stands.as_ptr_range());
        }
        assert_eq!(read_book(&lent, 3), Err(Refusal::NoSuchFrame));
    }
}

/// 32 times 2^27 is 0 in 32 bits, and 32 times 2^59 is 0 in 64.
#[test]
fn nothing_wraps_in_a_book() {
    let many = b"POLL\x08\0\0\0\0\0\0\0\0\0\0\0";
    assert_eq!(look_at_book(many), Err(Refusal::BookSize));
    let book = written(&frames_of(2));
    for i in [2, 1 << 27, 1 << 32, 1 << 59, (1 << 59) + 1, usize::MAX] {
        assert_eq!(read_book(&book, i), Err(Refusal::NoSuchFrame));
    }
}

#[test]
fn a_frame_that_cannot_be_read_is_written_all_the_same() {
    let book = written(&[255; FRAME_BYTES]);
    let frame = read_book(&book, 0).expect("there is such a frame");
    assert_eq!(read(frame), Err(Refusal::PadBit));
}
