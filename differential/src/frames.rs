//! Making and reading frames, by both programs.

use crate::call::{Call, Outcome};
use second::answers::Answers;
use second::frames::Reading;

#[derive(Debug)]
pub struct MakeFrame {
    pub reading: Reading,
    pub frame: Vec<u8>,
}

impl Call for MakeFrame {
    fn name(&self) -> &'static str {
        "making a frame"
    }

    fn proved(&self) -> Outcome {
        let Reading {
            house,
            poll,
            counter,
        } = self.reading;
        let reading = blentovar::Reading {
            house,
            poll,
            counter,
        };
        let mut frame = self.frame.clone();
        let answer = blentovar::make_frame(reading, &mut frame);
        Outcome::proved(&answer).bytes(&frame)
    }

    fn expected(&self, answers: &mut Answers) -> Outcome {
        let answer = answers.make_frame(self.reading, self.frame.len());
        let outcome = Outcome::expected(&answer);
        match answer {
            Ok(frame) => outcome.bytes(&frame),
            Err(_) => outcome.bytes(&self.frame),
        }
    }
}

#[derive(Debug)]
pub struct ReadFrame {
    pub frame: Vec<u8>,
}

impl Call for ReadFrame {
    fn name(&self) -> &'static str {
        "reading a frame"
    }

    fn proved(&self) -> Outcome {
        let frame = self.frame.clone();
        let answer = blentovar::read_frame(&frame);
        let given = answer.map_or(vec![], |received| {
            let reading = received.reading;
            let (house, poll) = (reading.house.into(), reading.poll.into());
            vec![house, poll, reading.counter, received.wrong as u64]
        });
        Outcome::proved(&answer).giving(&given).bytes(&frame)
    }

    fn expected(&self, answers: &mut Answers) -> Outcome {
        let answer = answers.read_frame(&self.frame);
        let given = answer.map_or(vec![], |(reading, wrong)| {
            let (house, poll) = (reading.house.into(), reading.poll.into());
            vec![house, poll, reading.counter, wrong as u64]
        });
        let outcome = Outcome::expected(&answer).giving(&given);
        outcome.bytes(&self.frame)
    }
}
