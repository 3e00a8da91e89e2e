//! Looking at, reading and writing poll books, by both programs.

use crate::call::{Call, Outcome};
use second::answers::Answers;

#[derive(Debug)]
pub struct LookAtBook {
    pub book: Vec<u8>,
}

impl Call for LookAtBook {
    fn name(&self) -> &'static str {
        "looking at a book"
    }

    fn proved(&self) -> Outcome {
        let book = self.book.clone();
        let answer = blentovar::look_at_book(&book);
        let given = answer.map_or(vec![], |count| vec![count as u64]);
        Outcome::proved(&answer).giving(&given).bytes(&book)
    }

    fn expected(&self, answers: &mut Answers) -> Outcome {
        let answer = answers.look_at_book(&self.book);
        let given = answer.map_or(vec![], |count| vec![count as u64]);
        let outcome = Outcome::expected(&answer).giving(&given);
        outcome.bytes(&self.book)
    }
}

#[derive(Debug)]
pub struct ReadBook {
    pub book: Vec<u8>,
    pub i: usize,
}

impl Call for ReadBook {
    fn name(&self) -> &'static str {
        "reading a book"
    }

    /// What is given is to be a part of the lent book; a copy elsewhere has another offset, which may wrap.
    fn proved(&self) -> Outcome {
        let book = self.book.clone();
        let answer = blentovar::read_book(&book, self.i);
        let given = answer.map_or(vec![], |frame| {
            let offset = (frame.as_ptr() as usize).wrapping_sub(book.as_ptr() as usize);
            vec![offset as u64, frame.len() as u64]
        });
        Outcome::proved(&answer).giving(&given).bytes(&book)
    }

    fn expected(&self, answers: &mut Answers) -> Outcome {
        let answer = answers.read_book(&self.book, self.i as u64);
        let outcome = Outcome::expected(&answer).bytes(&self.book);
        match answer {
            Ok(part) => outcome.giving(&[part.start as u64, part.len() as u64]),
            Err(_) => outcome,
        }
    }
}

#[derive(Debug)]
pub struct WriteBook {
    pub frames: Vec<u8>,
    pub book: Vec<u8>,
}

impl Call for WriteBook {
    fn name(&self) -> &'static str {
        "writing a book"
    }

    fn proved(&self) -> Outcome {
        let (frames, mut book) = (self.frames.clone(), self.book.clone());
        let answer = blentovar::write_book(&frames, &mut book);
        Outcome::proved(&answer).bytes(&frames).bytes(&book)
    }

    fn expected(&self, answers: &mut Answers) -> Outcome {
        let answer = answers.write_book(&self.frames, self.book.len());
        let book = answer.as_ref().unwrap_or(&self.book);
        Outcome::expected(&answer).bytes(&self.frames).bytes(book)
    }
}
