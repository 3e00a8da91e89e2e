//! Refusal 5 says which bit: the cases worked out by hand, and each of the five operations with every code.

use blentovar::{decode, edit, encode, sizes, Kept, Refusal};

fn bad_bit<T>(buffer: u32, place: usize) -> Result<T, Refusal> {
    Err(Refusal::BitAboveOne { buffer, place })
}

/// So many zeros but for these places, each of which holds more than 1.
fn spoiled(length: usize, places: &[usize]) -> Vec<u8> {
    let value = |place| if places.contains(&place) { 2 } else { 0 };
    (0..length).map(value).collect()
}

#[test]
fn cases_worked_out_by_hand() {
    let mut kept = Kept::open(4, 3, &[0; 15]).expect("zeros are taken");
    assert_eq!(kept.splice(10, &[1, 0, 2]), bad_bit(0, 2));
    let mut word = spoiled(15, &[7]);
    assert_eq!(edit(4, 3, &mut word, 0, &[3]), bad_bit(0, 7));
    assert_eq!(edit(4, 3, &mut [0; 15], 0, &[1, 3]), bad_bit(1, 1));
}

#[test]
fn the_text_says_where_the_bit_stands() {
    let refusal = edit(4, 3, &mut spoiled(15, &[7]), 0, &[3]).expect_err("7 holds 2");
    let text = "a bit of a lent message, word or stretch is above 1: place 7 of buffer 0, the word or the only one lent";
    assert_eq!(refusal.to_string(), text);
    let refusal = edit(4, 3, &mut [0; 15], 0, &[1, 3]).expect_err("1 holds 3");
    let text =
        "a bit of a lent message, word or stretch is above 1: place 1 of buffer 1, the stretch";
    assert_eq!(refusal.to_string(), text);
}

/// Bad bits at each of these places and after it, in what is lent to each operation.
fn check_code(m: usize, t: usize, n: usize, k: usize) {
    let mut kept = Kept::open(m, t, &vec![0; n]).expect("zeros are taken");
    for place in [0, k / 2, k - 1] {
        let message = spoiled(k, &[place, k - 1]);
        assert_eq!(encode(m, t, &message, &mut vec![0; n]), bad_bit(0, place));
        let mut word = vec![0; n];
        assert_eq!(edit(m, t, &mut word, 0, &message), bad_bit(1, place));
    }
    for place in [0, n / 2, n - 1] {
        let mut word = spoiled(n, &[place, n - 1]);
        let (mut mended, mut list) = (vec![0; n], vec![0; t]);
        let decoded = decode(m, t, &word, &mut mended, &mut list);
        assert_eq!(decoded, bad_bit(0, place));
        assert_eq!(Kept::open(m, t, &word), bad_bit(0, place));
        assert_eq!(edit(m, t, &mut word, 0, &[2]), bad_bit(0, place));
        assert_eq!(kept.splice(0, &word), bad_bit(0, place));
        assert_eq!(kept.splice(place, &[2]), bad_bit(0, 0));
    }
}

#[test]
fn the_place_is_the_first_one_with_every_code() {
    let mut codes = 0;
    for (m, t) in (3..=10).flat_map(|m| (0..=255).map(move |t| (m, t))) {
        if let Ok(code) = sizes(m, t) {
            check_code(m, t, code.n, code.k);
            codes += 1;
        }
    }
    assert_eq!(codes, 232);
}
