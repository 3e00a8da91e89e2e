//! What crates/every_code is to write: the lines of every listed code, and how many codes there are.

use crate::codes::{listed, Code};
use crate::made_up::MadeUp;
use crate::{keeping, mending, words};

pub fn text() -> String {
    let pairs = (3..=10).flat_map(|m| (0..=256).map(move |t| (m, t)));
    let lines: Vec<Vec<String>> = pairs
        .filter_map(|(m, t)| listed(m, t).map(|code| code_lines(m, &code)))
        .collect();
    let count = lines.len();
    format!("{}\ncodes {count}\n", lines.concat().join("\n"))
}

fn code_lines(m: u64, code: &Code) -> Vec<String> {
    let generator = code.generator();
    let mut lines = vec![described(m, code, &generator)];
    lines.extend(mending::lines(m, code, &generator));
    lines.push(keeping::line(m, code, generator));
    lines
}

/// m t n k, the generator and a word.
fn described(m: u64, code: &Code, generator: &[u8]) -> String {
    let (t, n, k) = (code.t, code.n, code.k);
    let message = MadeUp::of(m, code).bits(k);
    let word = words::encode(code, generator, &message);
    format!("{m} {t} {n} {k} {} {}", digits(generator), digits(&word))
}

fn digits(bits: &[u8]) -> String {
    bits.iter().map(|bit| bit.to_string()).collect()
}
