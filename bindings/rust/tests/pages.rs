//! What the repository's pages say of the codes, the refusals, the struck number and the version, compared with the crate.

use blentovar::{decode, describe, encode, sizes, Kept, Refusal};
use std::collections::BTreeMap;

const SHEET: [Refusal; 14] = [
    Refusal::FieldSize,
    Refusal::NotListed,
    Refusal::InputLength,
    Refusal::OutputLength,
    Refusal::BitAboveOne {
        buffer: 0,
        place: 0,
    },
    Refusal::NothingNear,
    Refusal::RecordContents,
    Refusal::FrameLength,
    Refusal::PadBit,
    Refusal::LeadBits,
    Refusal::StretchEnd,
    Refusal::NoTrailer,
    Refusal::BookSize,
    Refusal::NoSuchFrame,
];

/// A text up to where it begins to say which bit.
fn up_to<'a>(text: &'a str, which: &str) -> &'a str {
    text.split(which).next().unwrap_or_default()
}

#[test]
fn numbers_texts_and_names_are_those_of_the_sheet() {
    let page = include_str!("../../../docs/REFUSALS.md");
    for refusal in SHEET {
        let (number, text, name) = (
            refusal.number(),
            refusal.to_string(),
            format!("{refusal:?}"),
        );
        let (text, name) = (up_to(&text, ": place "), up_to(&name, " {"));
        let line = format!("| {number} | {text} | `{name}` |");
        assert!(page.lines().any(|other| other == line), "{line}");
    }
}

#[test]
fn the_struck_number_stands_nowhere() {
    let page = include_str!("../../../docs/REFUSALS.md");
    let rows: Vec<&str> = page
        .lines()
        .filter(|line| line.starts_with("| 8 |"))
        .collect();
    let struck = "| 8 | struck: no operation gives it, and no later refusal gets it | |";
    assert_eq!(rows, [struck]);
    let header = include_str!("../../../include/blentovar.h");
    let mut numbers = header.lines().map(|line| line.trim_end_matches(','));
    assert!(numbers.all(|line| !line.ends_with("= 8")));
}

/// n and k of every row of docs/CODES.md by m, which stands in the heading above it, and t.
fn codes_of_the_page() -> BTreeMap<(usize, usize), (usize, usize)> {
    let mut codes = BTreeMap::new();
    let mut m = 0;
    for line in include_str!("../../../docs/CODES.md").lines() {
        if let Some(heading) = line.strip_prefix("## m = ") {
            let (number, _) = heading.split_once(':').expect("a heading goes on");
            m = number.parse().expect("m is a number");
        }
        let cells = line.split('|').map(|cell| cell.trim().parse());
        if let [n, k, t] = cells.flatten().collect::<Vec<usize>>()[..] {
            codes.insert((m, t), (n, k));
        }
    }
    codes
}

#[test]
fn the_codes_of_the_page_are_taken_and_no_others() {
    let mut codes = codes_of_the_page();
    assert_eq!(codes.len(), 232);
    for (m, t) in (3..=10).flat_map(|m| (0..=600).map(move |t| (m, t))) {
        let given = sizes(m, t).map(|code| (code.n, code.k));
        let listed = codes.remove(&(m, t)).ok_or(Refusal::NotListed);
        assert_eq!(given, listed, "m {m}, t {t}");
    }
    assert!(codes.is_empty(), "{codes:?}");
}

#[test]
fn describe_gives_what_sizes_gives() {
    for (m, t) in codes_of_the_page().into_keys() {
        let code = sizes(m, t).expect("the code is listed");
        let mut generator = vec![0; code.n - code.k + 1];
        assert_eq!(describe(m, t, &mut generator), Ok(code), "m {m}, t {t}");
    }
}

/// What docs/REFUSALS.md says of the check for which 8 stood, of a word with t wrong places for every code.
#[test]
fn a_mended_word_opened_has_sums_of_0() {
    for ((m, t), (n, k)) in codes_of_the_page() {
        let message: Vec<u8> = (0..k).map(|place| u8::from(place % 3 == 0)).collect();
        let mut received = vec![0; n];
        encode(m, t, &message, &mut received).expect("the message is taken");
        for number in 0..t {
            received[number * n / t] ^= 1;
        }
        let (mut word, mut list) = (vec![0; n], vec![0; t]);
        let wrong = decode(m, t, &received, &mut word, &mut list);
        assert_eq!(wrong, Ok(t), "m {m}, t {t}");
        let record = Kept::open(m, t, &word).expect("a code word is taken");
        assert!(record.sums.iter().all(|sum| *sum == 0), "m {m}, t {t}");
    }
}

#[test]
fn the_version_is_that_of_the_header() {
    let header = include_str!("../../../include/blentovar.h");
    let version = env!("CARGO_PKG_VERSION");
    let line = format!("#define BLENTOVAR_VERSION \"{version}\"");
    assert!(header.lines().any(|other| other == line), "{line}");
    let parts = version.split('.').map(str::parse::<u32>);
    let number = parts.flatten().fold(0, |number, part| 100 * number + part);
    let line = format!("#define BLENTOVAR_VERSION_NUMBER {number}");
    assert!(header.lines().any(|other| other == line), "{line}");
}
