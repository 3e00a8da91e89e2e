//! The reading frame: 32 bytes with one word of the code (255, 99, 23), and the lines of the listing.

use crate::codes::{listed, Code};
use crate::euclid::{flipped, Decoder};
use crate::words::with_parity;

pub const FRAME_BYTES: usize = 32;

/// The first bits of a frame, first sent first. What comes of a line stuck at zero or at one is a code word too, but has another lead.
pub const LEAD: [u8; 3] = [1, 0, 1];

/// The listing takes no more frames than these.
const MOST_FRAMES: usize = 1_000_000;

#[derive(Clone, Copy, Debug, PartialEq)]
pub struct Reading {
    pub house: u16,
    pub poll: u16,
    pub counter: u64,
}

/// The link's code, with what making and reading a frame needs of it.
pub struct Link {
    code: Code,
    generator: Vec<u8>,
}

/// The frame that holds a word of 255 places.
pub fn frame_of_word(word: &[u8]) -> [u8; FRAME_BYTES] {
    let mut frame = [0; FRAME_BYTES];
    for (place, bit) in word.iter().enumerate() {
        let sent = 254 - place;
        frame[sent / 8] |= bit << (7 - sent % 8);
    }
    frame
}

impl Default for Link {
    fn default() -> Link {
        let code = listed(8, 23).expect("the code of the link is listed");
        let generator = code.generator();
        Link { code, generator }
    }
}

impl Link {
    pub fn make(&self, reading: Reading) -> [u8; FRAME_BYTES] {
        let fields = (u128::from(reading.house) << 80)
            | (u128::from(reading.poll) << 64)
            | u128::from(reading.counter);
        let field_bits = (0..96).rev().map(|i| (fields >> i & 1) as u8);
        let sent: Vec<u8> = LEAD.into_iter().chain(field_bits).collect();
        let message: Vec<u8> = (0..99).map(|place| sent[98 - place]).collect();
        frame_of_word(&with_parity(&self.code, &self.generator, &message))
    }

    /// The reading and the number of wrong places, or the sheet's number.
    pub fn read(&self, frame: &[u8]) -> Result<(Reading, usize), u32> {
        if frame.len() != FRAME_BYTES {
            return Err(9);
        }
        if frame[FRAME_BYTES - 1] & 1 == 1 {
            return Err(10);
        }
        let sent_bit = |sent: usize| frame[sent / 8] >> (7 - sent % 8) & 1;
        let received: Vec<u8> = (0..255).map(|place| sent_bit(254 - place)).collect();
        let places = Decoder::new(&self.code)
            .wrong_places(&received)
            .ok_or(6u32)?;
        let mended = flipped(&received, &places);
        let sent: Vec<u8> = (0..99).map(|sent| mended[254 - sent]).collect();
        let (lead, fields) = sent.split_at(LEAD.len());
        if lead != LEAD {
            return Err(11);
        }
        let number = |bits: &[u8]| bits.iter().fold(0u64, |n, bit| n << 1 | u64::from(*bit));
        let reading = Reading {
            house: number(&fields[..16]) as u16,
            poll: number(&fields[16..32]) as u16,
            counter: number(&fields[32..]),
        };
        Ok((reading, places.len()))
    }

    /// What the listing prints of these bytes.
    pub fn listing(&self, bytes: &[u8]) -> String {
        let line = |(i, frame): (usize, &[u8])| self.line(i + 1, frame);
        let frames = bytes.chunks(FRAME_BYTES).take(MOST_FRAMES);
        frames.enumerate().map(line).collect()
    }

    fn line(&self, number: usize, frame: &[u8]) -> String {
        match self.read(frame) {
            Ok((reading, wrong)) => {
                let Reading {
                    house,
                    poll,
                    counter,
                } = reading;
                format!("{number} read {house} {poll} {counter} {wrong}\n")
            }
            Err(refusal) => format!("{number} refused {refusal}\n"),
        }
    }
}

#[cfg(test)]
mod tests {
    use super::{frame_of_word, with_parity, Link, Reading, FRAME_BYTES};
    use crate::made_up::MadeUp;

    const READING: Reading = Reading {
        house: 0x1234,
        poll: 0x5678,
        counter: 0x0123_4567_89ab_cdef,
    };
    const FIELDS_OF_READING: u128 = 0x1234_5678_0123_4567_89ab_cdef;

    #[test]
    fn the_listing_of_the_example() {
        let mut bytes = vec![0; 64];
        bytes[32 + 5] = 129;
        bytes.extend([255; 32]);
        bytes.extend([255; 31]);
        bytes.push(254);
        bytes.extend([0; 5]);
        let expected = "1 refused 11\n2 refused 11\n3 refused 10\n4 refused 11\n5 refused 9\n";
        assert_eq!(Link::default().listing(&bytes), expected);
    }

    #[test]
    fn nothing_after_the_millionth_frame_is_listed() {
        let bytes = vec![255; 32_000_005];
        let text = Link::default().listing(&bytes);
        assert_eq!(text.lines().count(), 1_000_000);
        assert!(text.ends_with("\n1000000 refused 10\n"));
    }

    #[test]
    fn what_is_made_reads_back_also_with_23_wrong() {
        let link = Link::default();
        let reading = Reading {
            house: 65535,
            poll: 1,
            counter: u64::MAX - 5,
        };
        let mut frame = link.make(reading);
        assert_eq!(link.read(&frame), Ok((reading, 0)));
        frame[..23].iter_mut().for_each(|byte| *byte ^= 64);
        assert_eq!(link.read(&frame), Ok((reading, 23)));
    }

    /// The code word of the reading with any lead; lead bit q stands at message place 98 - q.
    fn word_with_lead(link: &Link, lead: [u8; 3]) -> Vec<u8> {
        let field_bit = |place: usize| (FIELDS_OF_READING >> place & 1) as u8;
        let mut message: Vec<u8> = (0..99).map(field_bit).collect();
        for (q, bit) in lead.into_iter().enumerate() {
            message[98 - q] = bit;
        }
        with_parity(&link.code, &link.generator, &message)
    }

    /// The three bits of a number below 8, first sent first.
    fn lead_of(number: u8) -> [u8; 3] {
        [number >> 2 & 1, number >> 1 & 1, number & 1]
    }

    #[test]
    fn the_sent_lead_decides_and_not_the_one_that_comes_in() {
        let link = Link::default();
        let mut made_up = MadeUp::new(1);
        for (sent, came) in (0u8..64).map(|pair| (pair / 8, pair % 8)) {
            let of_the_lead = (sent ^ came).count_ones() as usize;
            for wrong in [of_the_lead, 5, 23] {
                let mut word = word_with_lead(&link, lead_of(sent));
                for (q, bit) in lead_of(came).into_iter().enumerate() {
                    word[254 - q] = bit;
                }
                made_up.flip(&mut word[..252], wrong - of_the_lead);
                let frame = frame_of_word(&word);
                assert_eq!(frame[0] >> 5, came);
                let expected = match lead_of(sent) {
                    [1, 0, 1] => Ok((READING, wrong)),
                    _ => Err(11),
                };
                assert_eq!(link.read(&frame), expected, "sent {sent}, came {came}");
            }
        }
        let made = frame_of_word(&word_with_lead(&link, [1, 0, 1]));
        assert_eq!(link.make(READING), made);
    }

    fn is_refused_11_and_with_the_pad_10(link: &Link, word: &[u8]) {
        let mut frame = frame_of_word(word);
        assert_eq!(link.read(&frame), Err(11));
        frame[FRAME_BYTES - 1] |= 1;
        assert_eq!(link.read(&frame), Err(10));
    }

    #[test]
    fn a_stuck_line_is_no_reading() {
        let link = Link::default();
        let mut made_up = MadeUp::new(2);
        for stuck in [0, 1] {
            for changed in [0, 1, 5, 22, 23].repeat(20) {
                let mut word = vec![stuck; 255];
                made_up.flip(&mut word, changed);
                is_refused_11_and_with_the_pad_10(&link, &word);
            }
        }
    }

    #[test]
    fn a_stuck_line_is_no_reading_where_noise_gives_it_the_lead() {
        let link = Link::default();
        let mut made_up = MadeUp::new(3);
        for (stuck, of_the_lead) in [(0, 2), (1, 1)] {
            for changed in [of_the_lead, 5, 22, 23].repeat(20) {
                let mut word = vec![stuck; 255];
                (word[254], word[253], word[252]) = (1, 0, 1);
                made_up.flip(&mut word[..252], changed - of_the_lead);
                is_refused_11_and_with_the_pad_10(&link, &word);
            }
        }
    }

    /// The bits of frames that are sent back to back, each with its pad.
    fn stream(frames: &[[u8; FRAME_BYTES]]) -> Vec<u8> {
        let bits_of = |byte: u8| (0..8).rev().map(move |i| byte >> i & 1);
        frames.concat().into_iter().flat_map(bits_of).collect()
    }

    /// What a receiver takes for a frame that starts at this bit of a stream.
    fn taken_up(stream: &[u8], start: usize) -> Vec<u8> {
        let byte_of = |bits: &[u8]| bits.iter().fold(0, |byte, bit| byte << 1 | bit);
        stream[start..start + 256].chunks(8).map(byte_of).collect()
    }

    fn made_up_reading(made_up: &mut MadeUp) -> Reading {
        let mut number = |count| {
            let bits = made_up.bits(count);
            bits.iter().fold(0u64, |n, bit| n << 1 | u64::from(*bit))
        };
        Reading {
            house: number(16) as u16,
            poll: number(16) as u16,
            counter: number(64),
        }
    }

    // The code is cyclic, so a frame that is taken up a few places off is near a turned code word. Early, that word's lead starts with the bit that comes in
    // as the pad: 1 is a wrong pad and 0 a wrong lead. One place late, the next frame's first bit comes in as the pad.
    #[test]
    fn frames_taken_up_early_or_one_place_late_are_refused() {
        let link = Link::default();
        let mut made_up = MadeUp::new(4);
        let readings: Vec<Reading> = (0..100).map(|_| made_up_reading(&mut made_up)).collect();
        let frames: Vec<_> = readings.iter().map(|reading| link.make(*reading)).collect();
        let stream = stream(&frames);
        let between_others = readings.iter().enumerate().take(99).skip(1);
        for (number, reading) in between_others {
            let start = 256 * number;
            let read_from = |bit| link.read(&taken_up(&stream, bit));
            assert_eq!(read_from(start), Ok((*reading, 0)));
            assert_eq!(read_from(start + 1), Err(10));
            for early in 1..=23 {
                let answer = read_from(start - early);
                assert!(matches!(answer, Err(10 | 11)), "{early}: {answer:?}");
            }
        }
    }

    // The lead of the turned code word is 0 1 and the first bit of the house.
    #[test]
    fn a_frame_taken_up_one_place_late_is_refused_where_zeros_follow() {
        let link = Link::default();
        let mut made_up = MadeUp::new(5);
        for _ in 0..100 {
            let frame = link.make(made_up_reading(&mut made_up));
            let stream = stream(&[frame, [0; FRAME_BYTES]]);
            assert_eq!(link.read(&taken_up(&stream, 1)), Err(11));
        }
    }

    // House 20000 starts with 0 1, so that the last lead bit and these two are a lead; the pad and the next frame's first bit are taken for two wrong bits of
    // the turned code word.
    #[test]
    fn a_frame_taken_up_two_places_late_can_be_another_reading() {
        let link = Link::default();
        let sent = Reading {
            house: 20000,
            poll: 7,
            counter: 123456,
        };
        let frame = link.make(sent);
        let first_two_parity_bits = u64::from(frame[12] >> 3 & 3);
        let read = Reading {
            house: 14464,
            poll: 28,
            counter: 493824 + first_two_parity_bits,
        };
        let stream = stream(&[frame, link.make(READING)]);
        assert_eq!(link.read(&taken_up(&stream, 2)), Ok((read, 2)));
    }
}
