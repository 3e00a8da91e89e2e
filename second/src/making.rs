//! Typed lines `house poll counter`: the frames of those that say a reading, and a message for each that does not.

use crate::frames::{Link, Reading};

pub struct Made {
    pub frames: Vec<u8>,
    pub messages: String,
}

/// What is made of an input; what stands after the last newline is a line unless it is empty.
pub fn made(input: &[u8]) -> Made {
    let link = Link::default();
    let mut made = Made {
        frames: Vec::new(),
        messages: String::new(),
    };
    let mut lines: Vec<&[u8]> = input.split(|byte| *byte == b'\n').collect();
    if lines.last().is_some_and(|line| line.is_empty()) {
        lines.pop();
    }
    for (i, line) in lines.iter().enumerate() {
        match reading(line) {
            Some(reading) => made.frames.extend(link.make(reading)),
            None => made.messages.push_str(&message(i + 1)),
        }
    }
    made
}

fn message(number: usize) -> String {
    format!("line {number}: not a house, a poll number and a counter\n")
}

/// Three numbers with one blank between them, nothing else.
fn reading(line: &[u8]) -> Option<Reading> {
    let texts: Vec<&[u8]> = line.split(|byte| *byte == b' ').collect();
    let [house, poll, counter] = texts[..] else {
        return None;
    };
    Some(Reading {
        house: u16::try_from(number(house)?).ok()?,
        poll: u16::try_from(number(poll)?).ok()?,
        counter: u64::try_from(number(counter)?).ok()?,
    })
}

/// 1 to 20 digits, from the last with weight 1 to the first; 20 digits are far below 2^128.
fn number(text: &[u8]) -> Option<u128> {
    if text.is_empty() || text.len() > 20 || !text.iter().all(u8::is_ascii_digit) {
        return None;
    }
    let weights = std::iter::successors(Some(1u128), |weight| Some(10 * weight));
    let digits = text.iter().rev().map(|digit| u128::from(digit - b'0'));
    Some(
        digits
            .zip(weights)
            .map(|(digit, weight)| digit * weight)
            .sum(),
    )
}

#[cfg(test)]
mod tests {
    use super::{made, reading};
    use crate::frames::{Link, Reading};

    #[test]
    fn the_largest_values_are_taken_and_the_next_refused() {
        let largest = Reading {
            house: 65535,
            poll: 65535,
            counter: u64::MAX,
        };
        assert_eq!(reading(b"65535 65535 18446744073709551615"), Some(largest));
        assert_eq!(reading(b"65536 0 0"), None);
        assert_eq!(reading(b"0 65536 0"), None);
        assert_eq!(reading(b"0 0 18446744073709551616"), None);
    }

    #[test]
    fn zeros_in_front_count_as_digits() {
        let reading_one = Reading {
            house: 1,
            poll: 2,
            counter: 3,
        };
        let line = b"00000000000000000001 002 03";
        assert_eq!(reading(line), Some(reading_one));
        assert_eq!(reading(b"000000000000000000001 2 3"), None);
    }

    #[test]
    fn anything_else_is_refused() {
        for line in ["", "1", "1 2", "1 2 3 4", "1 2 3 ", " 1 2 3", "1  2 3"] {
            assert_eq!(reading(line.as_bytes()), None, "{line}");
        }
        for line in ["1 2 3\r", "1\t2 3", "+1 2 3", "1 -2 3", "1 2 3.0", "a b c"] {
            assert_eq!(reading(line.as_bytes()), None, "{line}");
        }
    }

    #[test]
    fn a_last_line_without_its_end_counts() {
        let one = made(b"0 0 0\n").frames;
        let two = made(b"0 0 0\n\n0 0 0");
        assert_eq!(two.frames, one.repeat(2));
        let message = "line 2: not a house, a poll number and a counter\n";
        assert_eq!(two.messages, message);
        assert!(made(b"").messages.is_empty());
    }

    #[test]
    fn the_frame_of_zeros_has_the_lead_and_reads_back() {
        let zeros = Reading {
            house: 0,
            poll: 0,
            counter: 0,
        };
        let frame = made(b"0 0 0\n").frames;
        assert_eq!(frame[..12], [0b1010_0000, 0, 0, 0, 0, 0, 0, 0, 0, 0, 0, 0]);
        assert_eq!(Link::default().read(&frame), Ok((zeros, 0)));
    }
}
