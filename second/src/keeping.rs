//! Words of a code edited, opened, spliced and decoded from what is kept.

use crate::codes::Code;
use crate::editing::edit;
use crate::kept::{decode_kept, open, splice, Kept};
use crate::made_up::MadeUp;
use crate::sheet::{self, plain, Refusal};
use crate::tally::Tally;
use crate::words::with_parity;

const ROUNDS: usize = 20;

/// The longest stretch that is spliced in.
const LONGEST: usize = 32;

/// m, t, how many were mended and refused, the number of wrong places and the sum.
pub fn line(m: u64, code: &Code, generator: Vec<u8>) -> String {
    let mut trial = Trial {
        m,
        code,
        generator,
        made_up: MadeUp::of(m, code),
        tally: Tally::default(),
    };
    for _ in 0..ROUNDS {
        trial.round();
    }
    let Tally {
        mended,
        refused,
        wrong,
        sum,
    } = trial.tally;
    format!("keep {m} {} {mended} {refused} {wrong} {sum}", code.t)
}

struct Trial<'a> {
    m: u64,
    code: &'a Code,
    generator: Vec<u8>,
    made_up: MadeUp,
    tally: Tally,
}

impl Trial<'_> {
    /// A sent word edited, damaged, edited again, opened, spliced three times and twice refused, decoded, and decoded with one stored sum changed by hand.
    fn round(&mut self) {
        let (n, k, t) = (self.code.n, self.code.k, self.code.t);
        let message = self.made_up.bits(k);
        let mut word = with_parity(self.code, &self.generator, &message);
        self.edit_some(&mut word);
        let count = self.made_up.below(t + 2);
        self.made_up.flip(&mut word, count);
        self.edit_some(&mut word);
        let mut record = open(self.m, self.code, &word);
        self.mix_sums(plain(0), &record);
        for _ in 0..3 {
            let start = self.made_up.below(n + 1);
            let long = self.made_up.below((n - start).min(LONGEST) + 1);
            let stretch = self.made_up.bits(long);
            record = self.splice(&record, start, &stretch);
        }
        record = self.splice(&record, n, &[1]);
        record = self.splice(&record, 4, &[1, 0, 2]);
        self.decode(&record);
        let place = self.made_up.below(t);
        record.sums[place] = self.made_up.below(n + 1) as u16;
        self.decode(&record);
    }

    /// A made-up stretch put at a made-up message place.
    fn edit_some(&mut self, word: &mut Vec<u8>) {
        let k = self.code.k;
        let start = self.made_up.below(k + 1);
        let long = self.made_up.below(k - start + 1);
        let stretch = self.made_up.bits(long);
        *word = edit(self.code, &self.generator, word, start, &stretch);
        self.mix_told(plain(0));
        self.tally.mix_all(word.iter().map(|bit| usize::from(*bit)));
    }

    fn splice(&mut self, record: &Kept, start: usize, stretch: &[u8]) -> Kept {
        let (told, result) = match sheet::splice(record, start as u64, stretch) {
            Ok(code) => (plain(0), splice(&code, record, start, stretch)),
            Err(refusal) => (refusal, record.clone()),
        };
        self.mix_sums(told, &result);
        result
    }

    /// The number, the buffer and the place.
    fn mix_told(&mut self, told: Refusal) {
        self.tally
            .mix_all([told.number as usize, told.buffer, told.place]);
    }

    fn mix_sums(&mut self, told: Refusal, record: &Kept) {
        self.mix_told(told);
        let sums = &record.sums[..self.code.t];
        self.tally.mix_all(sums.iter().map(|sum| usize::from(*sum)));
    }

    fn decode(&mut self, record: &Kept) {
        let places = decode_kept(self.code, record).map(|(_, places)| places);
        self.tally
            .add(self.code, &record.bits[..self.code.n], places);
    }
}
