//! Sizes, Describe, Encode, Decode and Edit, by both programs.

use crate::call::{Call, Outcome};
use blentovar::{Code, Refusal};
use second::answers::Answers;

#[derive(Debug)]
pub struct Sizes {
    pub m: usize,
    pub t: usize,
}

impl Call for Sizes {
    fn name(&self) -> &'static str {
        "Sizes"
    }

    fn proved(&self) -> Outcome {
        let answer = blentovar::sizes(self.m, self.t);
        Outcome::proved(&answer).giving(&n_and_k(answer))
    }

    fn expected(&self, answers: &mut Answers) -> Outcome {
        let answer = answers.sizes(self.m as u64, self.t as u64);
        let outcome = Outcome::expected(&answer);
        match answer {
            Ok(code) => outcome.giving(&[code.n as u64, code.k as u64]),
            Err(_) => outcome,
        }
    }
}

fn n_and_k(answer: Result<Code, Refusal>) -> Vec<u64> {
    answer.map_or(vec![], |code| vec![code.n as u64, code.k as u64])
}

#[derive(Debug)]
pub struct Describe {
    pub m: usize,
    pub t: usize,
    pub generator: Vec<u8>,
}

impl Call for Describe {
    fn name(&self) -> &'static str {
        "Describe"
    }

    fn proved(&self) -> Outcome {
        let mut generator = self.generator.clone();
        let answer = blentovar::describe(self.m, self.t, &mut generator);
        let outcome = Outcome::proved(&answer).giving(&n_and_k(answer));
        outcome.bytes(&generator)
    }

    fn expected(&self, answers: &mut Answers) -> Outcome {
        let answer = answers.describe(self.m as u64, self.t as u64, self.generator.len());
        let outcome = Outcome::expected(&answer);
        match answer {
            Ok(code) => outcome
                .giving(&[code.n as u64, code.k as u64])
                .bytes(&code.generator),
            Err(_) => outcome.bytes(&self.generator),
        }
    }
}

#[derive(Debug)]
pub struct Encode {
    pub m: usize,
    pub t: usize,
    pub message: Vec<u8>,
    pub word: Vec<u8>,
}

impl Call for Encode {
    fn name(&self) -> &'static str {
        "Encode"
    }

    fn proved(&self) -> Outcome {
        let (message, mut word) = (self.message.clone(), self.word.clone());
        let answer = blentovar::encode(self.m, self.t, &message, &mut word);
        Outcome::proved(&answer).bytes(&message).bytes(&word)
    }

    fn expected(&self, answers: &mut Answers) -> Outcome {
        let (m, t) = (self.m as u64, self.t as u64);
        let answer = answers.encode(m, t, &self.message, self.word.len());
        let word = answer.as_ref().unwrap_or(&self.word);
        Outcome::expected(&answer).bytes(&self.message).bytes(word)
    }
}

#[derive(Debug)]
pub struct Decode {
    pub m: usize,
    pub t: usize,
    pub received: Vec<u8>,
    pub word: Vec<u8>,
    pub list: Vec<u16>,
}

impl Call for Decode {
    fn name(&self) -> &'static str {
        "Decode"
    }

    fn proved(&self) -> Outcome {
        let received = self.received.clone();
        let (mut word, mut list) = (self.word.clone(), self.list.clone());
        let answer = blentovar::decode(self.m, self.t, &received, &mut word, &mut list);
        let given = answer.map_or(vec![], |wrong| vec![wrong as u64]);
        let outcome = Outcome::proved(&answer).giving(&given);
        outcome.bytes(&received).bytes(&word).list(&list)
    }

    fn expected(&self, answers: &mut Answers) -> Outcome {
        let (m, t) = (self.m as u64, self.t as u64);
        let answer = answers.decode(m, t, &self.received, self.word.len(), self.list.len());
        let outcome = Outcome::expected(&answer).bytes(&self.received);
        outcome.mended(&answer, &self.word, &self.list)
    }
}

#[derive(Debug)]
pub struct Edit {
    pub m: usize,
    pub t: usize,
    pub word: Vec<u8>,
    pub start: usize,
    pub stretch: Vec<u8>,
}

impl Call for Edit {
    fn name(&self) -> &'static str {
        "Edit"
    }

    fn proved(&self) -> Outcome {
        let (mut word, stretch) = (self.word.clone(), self.stretch.clone());
        let answer = blentovar::edit(self.m, self.t, &mut word, self.start, &stretch);
        Outcome::proved(&answer).bytes(&word).bytes(&stretch)
    }

    fn expected(&self, answers: &mut Answers) -> Outcome {
        let (m, t, start) = (self.m as u64, self.t as u64, self.start as u64);
        let answer = answers.edit(m, t, &self.word, start, &self.stretch);
        let word = answer.as_ref().unwrap_or(&self.word);
        Outcome::expected(&answer).bytes(word).bytes(&self.stretch)
    }
}
