//! Random calls over random listed codes. Every check of an operation meets a fault now and then, so that one call may have several.

use crate::books::{LookAtBook, ReadBook, WriteBook};
use crate::call::Call;
use crate::draw::Draw;
use crate::drawn_books;
use crate::frames::{MakeFrame, ReadFrame};
use crate::records::{DecodeKept, Open, Splice};
use crate::words::{Decode, Describe, Edit, Encode, Sizes};
use second::answers::Answers;
use second::book::TRAILER_BYTES;
use second::codes::listed;
use second::frames::{frame_of_word, Reading, FRAME_BYTES, LEAD};
use second::kept::{Kept, BITS, SUMS};

/// A check meets a fault in one call of so many.
pub const FAULT: usize = 10;

/// The longest buffer of a random wrong length.
const LONGEST: usize = 1100;

/// A listed code.
#[derive(Clone, Copy)]
struct Listed {
    m: usize,
    t: usize,
    n: usize,
    k: usize,
}

pub struct Drawing {
    draw: Draw,
    /// The codes of m 3, of m 4 and so on.
    codes: Vec<Vec<Listed>>,
    answers: Answers,
}

impl Drawing {
    pub fn new(draw: Draw) -> Drawing {
        Drawing {
            draw,
            codes: (3..=10).map(codes_of).collect(),
            answers: Answers::default(),
        }
    }

    pub fn call(&mut self) -> Box<dyn Call> {
        let code = self.code();
        match self.draw.below(13) {
            0 => Box::new(self.sizes(code)),
            1 => Box::new(self.describe(code)),
            2 => Box::new(self.encode(code)),
            3 => Box::new(self.decode(code)),
            4 => Box::new(self.edit(code)),
            5 => Box::new(self.open(code)),
            6 => Box::new(self.splice(code)),
            7 => Box::new(self.decode_kept(code)),
            8 => Box::new(self.make_frame()),
            9 => Box::new(self.read_frame()),
            10 => Box::new(self.look_at_book()),
            11 => Box::new(self.read_book()),
            _ => Box::new(self.write_book()),
        }
    }

    fn sizes(&mut self, code: Listed) -> Sizes {
        let (m, t) = self.field_and_t(code);
        Sizes { m, t }
    }

    fn describe(&mut self, code: Listed) -> Describe {
        let (m, t) = self.field_and_t(code);
        let generator = self.output(code.n - code.k + 1);
        Describe { m, t, generator }
    }

    fn encode(&mut self, code: Listed) -> Encode {
        let (m, t) = self.field_and_t(code);
        let message = self.draw.bits(code.k);
        Encode {
            m,
            t,
            message: self.input(message),
            word: self.output(code.n),
        }
    }

    fn decode(&mut self, code: Listed) -> Decode {
        let (m, t) = self.field_and_t(code);
        let received = self.received(code);
        Decode {
            m,
            t,
            received: self.input(received),
            word: self.output(code.n),
            list: self.list(code.t),
        }
    }

    fn edit(&mut self, code: Listed) -> Edit {
        let (m, t) = self.field_and_t(code);
        let word = self.received(code);
        let word = self.input(word);
        let (start, stretch) = self.stretch(code.k);
        Edit {
            m,
            t,
            word,
            start,
            stretch,
        }
    }

    fn open(&mut self, code: Listed) -> Open {
        let (m, t) = self.field_and_t(code);
        let word = self.received(code);
        let word = self.input(word);
        Open { m, t, word }
    }

    fn splice(&mut self, code: Listed) -> Splice {
        let record = self.record(code);
        let (start, stretch) = self.stretch(code.n);
        Splice {
            record,
            start,
            stretch,
        }
    }

    fn decode_kept(&mut self, code: Listed) -> DecodeKept {
        DecodeKept {
            record: self.record(code),
            word: self.output(code.n),
            list: self.list(code.t),
        }
    }

    fn make_frame(&mut self) -> MakeFrame {
        let reading = Reading {
            house: self.draw.number() as u16,
            poll: self.draw.number() as u16,
            counter: self.draw.number(),
        };
        let frame = self.output(FRAME_BYTES);
        MakeFrame { reading, frame }
    }

    /// A sent frame, one time in four with random lead bits, or a stuck line, either with up to 25 wrong bits; or random bytes; then faults.
    fn read_frame(&mut self) -> ReadFrame {
        let mut frame = if self.draw.one_in(FAULT) {
            self.draw.bytes(FRAME_BYTES)
        } else {
            self.damaged_frame()
        };
        frame[FRAME_BYTES - 1] &= 254;
        if self.draw.one_in(FAULT) {
            frame[FRAME_BYTES - 1] |= 1;
        }
        let length = self.length(FRAME_BYTES);
        frame.resize(length, 1);
        ReadFrame { frame }
    }

    fn damaged_frame(&mut self) -> Vec<u8> {
        let mut word = if self.draw.one_in(FAULT) {
            vec![self.draw.pick(&[0, 1]); 255]
        } else {
            self.sent_word()
        };
        let count = self.draw.below(26);
        self.draw.flip(&mut word, count);
        frame_of_word(&word).to_vec()
    }

    /// A code word of the link. The last place of its message is sent first, so the lead stands there backwards.
    fn sent_word(&mut self) -> Vec<u8> {
        let mut sent = self.draw.bits(99);
        if !self.draw.one_in(4) {
            sent[..LEAD.len()].copy_from_slice(&LEAD);
        }
        let message: Vec<u8> = sent.into_iter().rev().collect();
        let word = self.answers.encode(8, 23, &message, 255);
        word.expect("the code of the link is listed")
    }

    fn look_at_book(&mut self) -> LookAtBook {
        let count = drawn_books::count(&mut self.draw);
        let book = drawn_books::book(&mut self.draw, count);
        LookAtBook { book }
    }

    fn read_book(&mut self) -> ReadBook {
        let count = drawn_books::count(&mut self.draw);
        let book = drawn_books::book(&mut self.draw, count);
        let i = drawn_books::frame_number(&mut self.draw, count);
        ReadBook { book, i }
    }

    fn write_book(&mut self) -> WriteBook {
        let length = drawn_books::frames_length(&mut self.draw);
        let frames = self.draw.bytes(length);
        let book = self.output(length + TRAILER_BYTES);
        WriteBook { frames, book }
    }

    fn code(&mut self) -> Listed {
        let field = self.draw.below(self.codes.len());
        self.draw.pick(&self.codes[field])
    }

    /// m and t of a code, or one or both of them wrong.
    fn field_and_t(&mut self, code: Listed) -> (usize, usize) {
        let (mut m, mut t) = (code.m, code.t);
        if self.draw.one_in(FAULT) {
            let any = self.draw.number() as usize;
            m = self.draw.pick(&[0, 1, 2, 11, 12, m + 256, any, usize::MAX]);
        }
        if self.draw.one_in(FAULT) {
            let any = self.draw.number() as usize;
            let near = self.draw.below(LONGEST);
            t = self.draw.pick(&[0, t + 1, t + 256, near, any, usize::MAX]);
        }
        (m, t)
    }

    /// The right length, or another.
    fn length(&mut self, right: usize) -> usize {
        if !self.draw.one_in(FAULT) {
            return right;
        }
        let any = self.draw.below(LONGEST);
        self.draw.pick(&[right - 1, right + 1, 0, any])
    }

    fn output(&mut self, right: usize) -> Vec<u8> {
        let length = self.length(right);
        self.draw.bytes(length)
    }

    fn list(&mut self, right: usize) -> Vec<u16> {
        let length = self.length(right);
        self.draw.entries(length)
    }

    /// These bits, or cut or drawn out, or with one above 1.
    fn input(&mut self, mut bits: Vec<u8>) -> Vec<u8> {
        let length = self.length(bits.len());
        bits.resize(length, 1);
        self.spoil(&mut bits);
        bits
    }

    /// Now and then puts a number above 1 for a bit, or for two.
    fn spoil(&mut self, bits: &mut [u8]) {
        if bits.is_empty() || !self.draw.one_in(FAULT) {
            return;
        }
        for _ in 0..=self.draw.below(2) {
            let place = self.draw.below(bits.len());
            let any = 2 + self.draw.below(254);
            bits[place] = self.draw.pick(&[2, any]) as u8;
        }
    }

    /// A sent word with up to t + 2 wrong places, or random bits.
    fn received(&mut self, code: Listed) -> Vec<u8> {
        if self.draw.one_in(8) {
            return self.draw.bits(code.n);
        }
        let message = self.draw.bits(code.k);
        let (m, t) = (code.m as u64, code.t as u64);
        let word = self.answers.encode(m, t, &message, code.n);
        let mut word = word.expect("the code is listed");
        let count = self.draw.below(code.t + 3);
        self.draw.flip(&mut word, count);
        word
    }

    /// A start and a stretch that end in time, or run past the end.
    fn stretch(&mut self, end: usize) -> (usize, Vec<u8>) {
        let mut start = self.draw.below(end + 1);
        let mut length = self.draw.below(end - start + 1);
        if self.draw.one_in(4) {
            length = length.min(1);
        }
        if self.draw.one_in(FAULT) {
            let any = self.draw.number() as usize;
            start = self
                .draw
                .pick(&[end + 1, usize::MAX, usize::MAX - length, any]);
        }
        if self.draw.one_in(FAULT) {
            length = end.saturating_sub(start) + 1;
        }
        let mut stretch = self.draw.bits(length);
        self.spoil(&mut stretch);
        (start, stretch)
    }

    /// A record of a received word, often changed by hand.
    fn record(&mut self, code: Listed) -> Kept {
        let word = self.received(code);
        let opened = self.answers.open(code.m as u64, code.t as u64, &word);
        let mut record = opened.expect("the code is listed");
        self.change_by_hand(code, &mut record);
        self.spoil(&mut record.bits[..code.n]);
        if self.draw.one_in(FAULT) {
            let least = code.n + 1;
            let any = least + self.draw.below(65536 - least);
            let place = self.draw.below(code.t);
            record.sums[place] = self.draw.pick(&[least, any]) as u16;
        }
        let (m, t) = self.field_and_t(code);
        (record.m, record.t) = (m as u64, t as u64);
        record
    }

    /// Lawful changes: sums that are not those of the bits, and anything past n and past t.
    fn change_by_hand(&mut self, code: Listed, record: &mut Kept) {
        let (n, t) = (code.n, code.t);
        if self.draw.one_in(4) {
            let bits = self.draw.bits(n);
            record.bits[..n].copy_from_slice(&bits);
        }
        if self.draw.one_in(4) {
            let place = self.draw.below(t);
            let any = self.draw.below(n + 1);
            record.sums[place] = self.draw.pick(&[n, any]) as u16;
        }
        if self.draw.one_in(4) {
            let bits = self.draw.bytes(BITS - n);
            record.bits[n..].copy_from_slice(&bits);
            let sums = self.draw.entries(SUMS - t);
            record.sums[t..].copy_from_slice(&sums);
        }
    }
}

fn codes_of(m: usize) -> Vec<Listed> {
    let found = |t: usize| {
        let code = listed(m as u64, t as u64)?;
        let (n, k) = (code.n, code.k);
        Some(Listed { m, t, n, k })
    };
    (1..=SUMS).filter_map(found).collect()
}
