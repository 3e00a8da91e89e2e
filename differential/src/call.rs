//! A call of an operation with all that is lent to it, and what can be seen after it.

use second::answers::{Answers, Mended};
use second::sheet::{self, plain};
use std::fmt::Debug;

pub trait Call: Debug {
    fn name(&self) -> &'static str;

    /// What the proved code answers.
    fn proved(&self) -> Outcome;

    /// What the second program answers.
    fn expected(&self, answers: &mut Answers) -> Outcome;
}

/// What is told: the sheet's number, 0 where nothing is refused, and the bit that 5 names; the numbers that are given; every lent buffer after the call, and the bits and sums of a record that is given.
#[derive(Debug, PartialEq)]
pub struct Outcome {
    pub told: sheet::Refusal,
    given: Vec<u64>,
    buffers: Vec<Vec<u16>>,
}

impl Outcome {
    /// What `blentovar` answered, so far as it is a refusal or none.
    pub fn proved<T>(answer: &Result<T, blentovar::Refusal>) -> Outcome {
        Outcome::new(match answer {
            Ok(_) => plain(0),
            Err(refusal @ blentovar::Refusal::BitAboveOne { buffer, place }) => sheet::Refusal {
                number: refusal.number(),
                buffer: *buffer as usize,
                place: *place,
            },
            Err(refusal) => plain(refusal.number()),
        })
    }

    /// What the second program answered, so far as it is a refusal or none.
    pub fn expected<T>(answer: &Result<T, sheet::Refusal>) -> Outcome {
        Outcome::new(answer.as_ref().err().map_or(plain(0), |refusal| *refusal))
    }

    fn new(told: sheet::Refusal) -> Outcome {
        Outcome {
            told,
            given: vec![],
            buffers: vec![],
        }
    }

    pub fn giving(mut self, numbers: &[u64]) -> Outcome {
        self.given.extend(numbers);
        self
    }

    pub fn bytes(mut self, buffer: &[u8]) -> Outcome {
        let entries = buffer.iter().map(|x| u16::from(*x));
        self.buffers.push(entries.collect());
        self
    }

    pub fn list(mut self, buffer: &[u16]) -> Outcome {
        self.buffers.push(buffer.to_vec());
        self
    }

    pub fn record(self, m: u64, t: u64, bits: &[u8], sums: &[u16]) -> Outcome {
        self.giving(&[m, t]).bytes(bits).list(sums)
    }

    /// The number of wrong places, the word, and the list with its zeros; refused, both buffers as lent.
    pub fn mended(
        self,
        answer: &Result<Mended, sheet::Refusal>,
        word: &[u8],
        list: &[u16],
    ) -> Outcome {
        let Ok(Mended {
            word: mended,
            places,
        }) = answer
        else {
            return self.bytes(word).list(list);
        };
        let mut listed: Vec<u16> = places.iter().map(|place| *place as u16).collect();
        listed.resize(list.len(), 0);
        let outcome = self.giving(&[places.len() as u64]);
        outcome.bytes(mended).list(&listed)
    }
}
