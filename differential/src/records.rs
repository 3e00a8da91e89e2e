//! Open, Splice and Decode kept, by both programs.

use crate::call::{Call, Outcome};
use second::answers::Answers;
use second::kept::Kept;

#[derive(Debug)]
pub struct Open {
    pub m: usize,
    pub t: usize,
    pub word: Vec<u8>,
}

impl Call for Open {
    fn name(&self) -> &'static str {
        "Open"
    }

    fn proved(&self) -> Outcome {
        let word = self.word.clone();
        let answer = blentovar::Kept::open(self.m, self.t, &word);
        let outcome = Outcome::proved(&answer).bytes(&word);
        match answer {
            Ok(kept) => with_record(outcome, &kept),
            Err(_) => outcome,
        }
    }

    fn expected(&self, answers: &mut Answers) -> Outcome {
        let answer = answers.open(self.m as u64, self.t as u64, &self.word);
        let outcome = Outcome::expected(&answer).bytes(&self.word);
        match answer {
            Ok(kept) => outcome.record(kept.m, kept.t, &kept.bits, &kept.sums),
            Err(_) => outcome,
        }
    }
}

#[derive(Debug)]
pub struct Splice {
    pub record: Kept,
    pub start: usize,
    pub stretch: Vec<u8>,
}

impl Call for Splice {
    fn name(&self) -> &'static str {
        "Splice"
    }

    fn proved(&self) -> Outcome {
        let (mut kept, stretch) = (proved_record(&self.record), self.stretch.clone());
        let answer = kept.splice(self.start, &stretch);
        with_record(Outcome::proved(&answer).bytes(&stretch), &kept)
    }

    fn expected(&self, answers: &mut Answers) -> Outcome {
        let answer = answers.splice(&self.record, self.start as u64, &self.stretch);
        let kept = answer.as_ref().unwrap_or(&self.record);
        let outcome = Outcome::expected(&answer).bytes(&self.stretch);
        outcome.record(kept.m, kept.t, &kept.bits, &kept.sums)
    }
}

#[derive(Debug)]
pub struct DecodeKept {
    pub record: Kept,
    pub word: Vec<u8>,
    pub list: Vec<u16>,
}

impl Call for DecodeKept {
    fn name(&self) -> &'static str {
        "Decode kept"
    }

    fn proved(&self) -> Outcome {
        let (mut word, mut list) = (self.word.clone(), self.list.clone());
        let answer = proved_record(&self.record).decode(&mut word, &mut list);
        let given = answer.map_or(vec![], |wrong| vec![wrong as u64]);
        let outcome = Outcome::proved(&answer).giving(&given);
        outcome.bytes(&word).list(&list)
    }

    fn expected(&self, answers: &mut Answers) -> Outcome {
        let answer = answers.decode_kept(&self.record, self.word.len(), self.list.len());
        Outcome::expected(&answer).mended(&answer, &self.word, &self.list)
    }
}

fn proved_record(record: &Kept) -> blentovar::Kept {
    let mut kept = blentovar::Kept::zeros();
    (kept.m, kept.t) = (record.m as usize, record.t as usize);
    kept.bits.copy_from_slice(&record.bits);
    kept.sums.copy_from_slice(&record.sums);
    kept
}

fn with_record(outcome: Outcome, kept: &blentovar::Kept) -> Outcome {
    outcome.record(kept.m as u64, kept.t as u64, &kept.bits, &kept.sums)
}
