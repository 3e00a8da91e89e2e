//! The refusal sheet.

use crate::library::Told;
use core::error::Error;
use core::fmt;

/// Why an operation refused. Each refusal has one number and one condition, which is also its text; the text of 5 goes on to say which bit. Where several conditions hold, the one that is checked first is given.
#[derive(Clone, Copy, Debug, PartialEq, Eq, Hash)]
#[non_exhaustive]
pub enum Refusal {
    /// 1: m is not 3 to 10.
    FieldSize,
    /// 2: t is not listed for m.
    NotListed,
    /// 3: the message is not k long; a received or edited word is not n long.
    InputLength,
    /// 4: an output buffer has the wrong length, longer or shorter.
    OutputLength,
    /// 5: a bit of a lent message, word or stretch is above 1.
    BitAboveOne {
        /// 1 for the stretch of Edit; 0 for the word, or for the only buffer whose bits are looked at, so also for the stretch of Splice.
        buffer: u32,
        /// The first place in that buffer, as it was lent, that holds more than 1.
        place: usize,
    },
    /// 6: no code word within t (Decode, reading a frame); no set of at most t places with the kept sums (Decode kept).
    NothingNear,
    /// 7: in a kept record one of the first n bits is above 1 or one of the first t sums is 2^m or more.
    RecordContents,
    // 8 is struck, and no refusal gets it again.
    /// 9: a frame, or the buffer for one, is not 32 bytes; the frames to be written to a book are no multiple of 32 bytes.
    FrameLength,
    /// 10: a frame's last bit is 1.
    PadBit,
    /// 11: a decoded frame's lead bits are wrong.
    LeadBits,
    /// 12: a stretch runs past the end: k for Edit, n for Splice.
    StretchEnd,
    /// 13: a book is shorter than 16 bytes, or its mark or its last number is wrong.
    NoTrailer,
    /// 14: a book's count is above 1,000, its distance is not 32 times the count, or it reaches before the start; the frames to be written are above 32,000 bytes.
    BookSize,
    /// 15: a book has no frame with this number.
    NoSuchFrame,
}

use Refusal::*;

impl Refusal {
    /// The sheet's number, 1 to 15. 8 is struck, so no refusal has it.
    ///
    /// ```
    /// assert_eq!(blentovar::Refusal::StretchEnd.number(), 12);
    /// ```
    pub fn number(self) -> u32 {
        match self {
            FieldSize => 1,
            NotListed => 2,
            InputLength => 3,
            OutputLength => 4,
            BitAboveOne { .. } => 5,
            NothingNear => 6,
            RecordContents => 7,
            FrameLength => 9,
            PadBit => 10,
            LeadBits => 11,
            StretchEnd => 12,
            NoTrailer => 13,
            BookSize => 14,
            NoSuchFrame => 15,
        }
    }

    /// What the library tells: number 0 is no refusal.
    pub(crate) fn check_told(told: Told) -> Result<(), Refusal> {
        let Told {
            number,
            buffer,
            place,
        } = told;
        Err(match number {
            0 => return Ok(()),
            1 => FieldSize,
            2 => NotListed,
            3 => InputLength,
            4 => OutputLength,
            5 => BitAboveOne { buffer, place },
            6 => NothingNear,
            7 => RecordContents,
            9 => FrameLength,
            10 => PadBit,
            11 => LeadBits,
            12 => StretchEnd,
            13 => NoTrailer,
            14 => BookSize,
            15 => NoSuchFrame,
            _ => panic!("the library answers a number of the sheet"),
        })
    }

    /// The same for an operation that looks at no lent bits, so that nothing is told beside the number.
    pub(crate) fn check(number: u32) -> Result<(), Refusal> {
        Refusal::check_told(Told {
            number,
            buffer: 0,
            place: 0,
        })
    }

    /// The condition, in the words of the sheet.
    fn condition(self) -> &'static str {
        match self {
            FieldSize => "m is not 3 to 10",
            NotListed => "t is not listed for m",
            InputLength => "the message is not k long; a received or edited word is not n long",
            OutputLength => "an output buffer has the wrong length, longer or shorter",
            BitAboveOne { .. } => "a bit of a lent message, word or stretch is above 1",
            NothingNear => {
                "no code word within t (Decode, reading a frame); no set of at most t places with the kept sums (Decode kept)"
            }
            RecordContents => {
                "in a kept record one of the first n bits is above 1 or one of the first t sums is 2^m or more"
            }
            FrameLength => {
                "a frame, or the buffer for one, is not 32 bytes; the frames to be written to a book are no multiple of 32 bytes"
            }
            PadBit => "a frame's last bit is 1",
            LeadBits => "a decoded frame's lead bits are wrong",
            StretchEnd => "a stretch runs past the end: k for Edit, n for Splice",
            NoTrailer => "a book is shorter than 16 bytes, or its mark or its last number is wrong",
            BookSize => {
                "a book's count is above 1,000, its distance is not 32 times the count, or it reaches before the start; the frames to be written are above 32,000 bytes"
            }
            NoSuchFrame => "a book has no frame with this number",
        }
    }
}

/// The condition; of a bit above 1 also where it stands.
///
/// ```
/// let refusal = blentovar::Refusal::BitAboveOne { buffer: 1, place: 4 };
/// let text = "a bit of a lent message, word or stretch is above 1: place 4 of buffer 1, the stretch";
/// assert_eq!(refusal.to_string(), text);
/// ```
impl fmt::Display for Refusal {
    fn fmt(&self, f: &mut fmt::Formatter) -> fmt::Result {
        f.write_str(self.condition())?;
        let BitAboveOne { buffer, place } = *self else {
            return Ok(());
        };
        let name = match buffer {
            0 => "the word or the only one lent",
            _ => "the stretch",
        };
        write!(f, ": place {place} of buffer {buffer}, {name}")
    }
}

impl Error for Refusal {}

#[cfg(test)]
mod tests {
    use super::Refusal;

    #[test]
    fn each_number_is_that_of_its_refusal() {
        assert_eq!(Refusal::check(0), Ok(()));
        for number in (1..=15).filter(|number| *number != 8) {
            assert_eq!(Refusal::check(number).map_err(Refusal::number), Err(number));
        }
    }

    #[test]
    #[should_panic(expected = "a number of the sheet")]
    fn the_struck_number_is_no_refusal() {
        let _ = Refusal::check(8);
    }
}
