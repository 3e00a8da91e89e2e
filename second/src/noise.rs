//! How often noise is taken for a reading, counted exactly; and what becomes of more than t wrong bits, tried on made-up patterns.

use crate::codes::{listed, Code};
use crate::euclid::Decoder;
use crate::made_up::MadeUp;
use crate::natural::Natural;
use crate::words::with_parity;

const RADII: [u32; 9] = [0, 5, 10, 15, 18, 20, 21, 22, 23];
const WEIGHTS: [usize; 5] = [24, 25, 30, 40, 50];
const PATTERNS: usize = 100_000;

const FRAMES_A_NIGHT: u32 = 1_000_000;
const NIGHTS_A_YEAR: u32 = 365;

/// A frame has 256 bits; pad and lead bits are fixed, so 96 bits choose the code words that are readings. With the lead 1 0 1 these are no linear space, but each message has one code word, so there are 2^96 of them.
const READING_EXPONENT: u32 = 256 - 96;
/// A word has 255 bits, and 99 of them choose the code word.
const WORD_EXPONENT: u32 = 255 - 99;

pub fn text() -> String {
    let code = listed(8, 23).expect("the code of the link is listed");
    let mut text = String::new();
    text += "256 random bits, each 0 or 1 with chance 1/2, read as a frame. Balls of radius 23 or less around code words do not meet, so this is counted and exact:\n";
    text += "a reading, which has pad 0 and lead 1 0 1, with at most r wrong places: V(255, r) in 2^160; some code word within r of 255 random bits: V(255, r) in 2^156.\n\n";
    for radius in RADII {
        text += &radius_lines(&code, radius);
    }
    text += "\nMore than 23 wrong bits. An exact chance needs the number of code words of each weight, which is not known here; so this is measured: made-up sent words with so many random wrong bits, decoded by Euclid's algorithm.\n\n";
    for weight in WEIGHTS {
        text += &weight_line(&code, weight);
    }
    text
}

fn radius_lines(code: &Code, radius: u32) -> String {
    let ball = ball(code.n as u32, radius);
    let reading_space = Natural::power_of_two(READING_EXPONENT);
    let word_space = Natural::power_of_two(WORD_EXPONENT);
    let frames = reading_space.over(&ball);
    let years = frames
        .over_small(FRAMES_A_NIGHT)
        .0
        .over_small(NIGHTS_A_YEAR)
        .0;
    format!(
        "r = {radius}: V(255, r) = {}\n  a reading: 1 frame in {} (chance {} a frame): one in {} years at a million frames a night\n  some code word within r: 1 word in {} (chance {})\n",
        ball.decimal(),
        rounded(&frames.decimal(), 0),
        chance(&ball, &reading_space),
        rounded(&years.decimal(), 0),
        rounded(&word_space.over(&ball).decimal(), 0),
        chance(&ball, &word_space),
    )
}

fn weight_line(code: &Code, weight: usize) -> String {
    let wrong_word = mended_into_another(code, weight, PATTERNS, &mut MadeUp::new(weight as u64));
    let count = match wrong_word {
        0 => format!("none in {PATTERNS}"),
        _ => format!("{wrong_word} in {PATTERNS}"),
    };
    format!("{weight} wrong bits: mended into another code word {count}, all others refused\n")
}

/// How many of so many made-up words with `weight` wrong bits are mended. The sent word is further than t, so what comes out is another.
fn mended_into_another(code: &Code, weight: usize, patterns: usize, made_up: &mut MadeUp) -> usize {
    assert!(weight > code.t, "the sent word is too far to be found");
    let generator = code.generator();
    let decoder = Decoder::new(code);
    let is_mended = |_: &usize| {
        let mut received = with_parity(code, &generator, &made_up.bits(code.k));
        made_up.flip(&mut received, weight);
        decoder.wrong_places(&received).is_some()
    };
    (0..patterns).filter(is_mended).count()
}

/// The number of words of n bits within a distance of one of them.
fn ball(n: u32, radius: u32) -> Natural {
    let mut binomial = Natural::of(1);
    let mut sum = binomial.clone();
    for i in 1..=radius {
        binomial = binomial.times(n + 1 - i).over_small(i).0;
        sum = sum.plus(&binomial);
    }
    sum
}

/// A fraction below 1, rounded.
fn chance(part: &Natural, whole: &Natural) -> String {
    const SHIFT: usize = 60;
    let shifted = (0..SHIFT).fold(part.clone(), |number, _| number.times(10));
    rounded(&shifted.over(whole).decimal(), SHIFT)
}

/// Decimal digits of a number times 10^shift, rounded down to three of them; a number of at most six digits stays whole.
fn rounded(digits: &str, shift: usize) -> String {
    if shift == 0 && digits.len() <= 6 {
        return digits.to_string();
    }
    let exponent = digits.len() as i64 - 1 - shift as i64;
    format!("{}.{}e{exponent}", &digits[..1], &digits[1..3])
}

#[cfg(test)]
mod tests {
    use super::{ball, chance, mended_into_another, rounded, RADII};
    use crate::codes::listed;
    use crate::frames::LEAD;
    use crate::made_up::MadeUp;
    use crate::natural::Natural;
    use crate::nearest::{code_words, wrong_places};
    use std::cmp::Ordering;

    #[test]
    fn balls_have_their_known_sizes() {
        assert_eq!(ball(255, 0).decimal(), "1");
        assert_eq!(ball(255, 1).decimal(), "256");
        assert_eq!(ball(255, 2).decimal(), "32641");
        // The perfect Golay code: 2^12 balls of radius 3 fill 2^23 words.
        assert_eq!(ball(23, 3), Natural::power_of_two(11));
        assert_eq!(ball(64, 64), Natural::power_of_two(64));
        // C(52, 5), the hands of five cards.
        let hands = Natural::of(2_598_960);
        assert_eq!(ball(52, 4).plus(&hands), ball(52, 5));
    }

    #[test]
    fn the_balls_of_the_links_code_do_not_overfill_the_space() {
        let space = Natural::power_of_two(255);
        for radius in RADII {
            let filled = ball(255, radius).doubled(99);
            assert_eq!(filled.order(&space), Ordering::Less);
        }
    }

    /// How many of all words of 15 bits are within the radius of one of these.
    fn near(words: &[u32], radius: usize) -> Natural {
        let is_near = |word: &u32| wrong_places(words, radius, *word).is_some();
        Natural::of((0..1 << 15).filter(is_near).count() as u32)
    }

    #[test]
    fn the_chance_for_short_words_is_that_of_counting_them() {
        let words = code_words(&listed(4, 3).expect("a listed code"));
        for radius in 0..=3 {
            assert_eq!(ball(15, radius as u32).doubled(5), near(&words, radius));
        }
    }

    #[test]
    fn the_chance_for_short_words_with_the_lead_is_that_of_counting_them() {
        let words = code_words(&listed(4, 3).expect("a listed code"));
        let bit = |word: u32, sent: usize| (word >> (14 - sent) & 1) as u8;
        let has_lead = |word: &u32| LEAD == [0, 1, 2].map(|sent| bit(*word, sent));
        let readings: Vec<u32> = words.into_iter().filter(has_lead).collect();
        for radius in 0..=3 {
            assert_eq!(ball(15, radius as u32).doubled(2), near(&readings, radius));
        }
    }

    #[test]
    fn words_beyond_t_are_mended_into_another_as_often_as_counted() {
        // Each of the 15 code words of weight 7 has C(7, 4) words of weight 4 within 3: 525 of 1,365.
        let code = listed(4, 3).expect("a listed code");
        let words = code_words(&code);
        let of_weight_4 = (0u32..1 << 15).filter(|w| w.count_ones() == 4);
        let near = of_weight_4.filter(|w| wrong_places(&words, 3, *w).is_some());
        assert_eq!(near.count(), 525);
        let tried = mended_into_another(&code, 4, 20_000, &mut MadeUp::new(1));
        let expected = 20_000 * 525 / 1365;
        assert!(tried.abs_diff(expected) < 300, "{tried} of {expected}");
    }

    #[test]
    fn numbers_are_rounded_down_to_three_digits() {
        assert_eq!(rounded("999999", 0), "999999");
        assert_eq!(rounded("1239999", 0), "1.23e6");
        assert_eq!(chance(&Natural::of(1), &Natural::of(8)), "1.25e-1");
        assert_eq!(chance(&Natural::of(1), &Natural::of(3000)), "3.33e-4");
    }
}
