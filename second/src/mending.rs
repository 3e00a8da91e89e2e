//! Decode on every word of the two shortest fields, and on made-up words of every other code.

use crate::codes::Code;
use crate::euclid::{flipped, Decoder};
use crate::made_up::MadeUp;
use crate::tally::Tally;
use crate::{nearest, words};

/// Ten words each.
const ROUNDS: usize = 100;

pub fn lines(m: u64, code: &Code, generator: &[u8]) -> Vec<String> {
    match m {
        3 => block_lines(m, code, 128),
        4 => block_lines(m, code, 256),
        _ => vec![code_line(m, code, generator)],
    }
}

/// Every word of a short code by brute force, in blocks of this size.
fn block_lines(m: u64, code: &Code, size: u32) -> Vec<String> {
    let code_words = nearest::code_words(code);
    let block = |first| block_line(m, code, &code_words, first, size);
    (0..1 << code.n).step_by(size as usize).map(block).collect()
}

/// m, t, the number of the first word, how many were refused, the number of wrong places and the sum.
fn block_line(m: u64, code: &Code, code_words: &[u32], first: u32, size: u32) -> String {
    let mut tally = Tally::default();
    for word in first..first + size {
        let places = nearest::wrong_places(code_words, code.t, word);
        tally.add(code, &nearest::bits_of(word, code.n), places);
    }
    let Tally {
        refused,
        wrong,
        sum,
        ..
    } = tally;
    format!("block {m} {} {first} {refused} {wrong} {sum}", code.t)
}

/// m, t, how many were mended and refused, the number of wrong places and the sum.
fn code_line(m: u64, code: &Code, generator: &[u8]) -> String {
    let decoder = Decoder::new(code);
    let mut made_up = MadeUp::of(m, code);
    let mut tally = Tally::default();
    let received = (0..ROUNDS).flat_map(|_| round(&decoder, code, generator, &mut made_up));
    for word in received {
        tally.add(code, &word, decoder.wrong_places(&word));
    }
    let Tally {
        mended,
        refused,
        wrong,
        sum,
    } = tally;
    format!("code {m} {} {mended} {refused} {wrong} {sum}", code.t)
}

/// A code word as it is, with t flips and with one and two more, with up to t flips three times, with three flips whose S_1 is 0, with three more of these, and a word of made-up bits.
fn round(decoder: &Decoder, code: &Code, generator: &[u8], made_up: &mut MadeUp) -> Vec<Vec<u8>> {
    let (n, t) = (code.n, code.t);
    let sent = words::with_parity(code, generator, &made_up.bits(code.k));
    let mut result = vec![sent.clone()];
    result.extend([t, t + 1, t + 2].map(|count| with_flips(&sent, count, made_up)));
    result.extend([t + 1; 3].map(|bound| {
        let count = made_up.below(bound);
        with_flips(&sent, count, made_up)
    }));
    let three = with_hidden_flips(decoder, &sent, made_up);
    let six = with_hidden_flips(decoder, &three, made_up);
    result.extend([three, six, made_up.bits(n)]);
    result
}

fn with_flips(word: &[u8], count: usize, made_up: &mut MadeUp) -> Vec<u8> {
    let mut result = word.to_vec();
    made_up.flip(&mut result, count);
    result
}

/// The word with places i, j and l turned over where a^i + a^j + a^l = 0, so that S_1 stays what it was; where i = j there is no l, and nothing changes.
fn with_hidden_flips(decoder: &Decoder, word: &[u8], made_up: &mut MadeUp) -> Vec<u8> {
    let n = word.len();
    let (i, j) = (made_up.below(n), made_up.below(n));
    let tables = &decoder.tables;
    let third = tables.log(tables.power_of_a(i) ^ tables.power_of_a(j));
    let places: Vec<usize> = [i, j].into_iter().chain(third).collect();
    flipped(word, &places)
}
