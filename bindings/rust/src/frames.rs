//! The reading frame.

use crate::library;
use crate::refusal::Refusal;

/// The bytes of a frame.
pub const FRAME_BYTES: usize = 32;

/// What a house reports in one frame. Every value of the three fields is lawful.
#[derive(Clone, Copy, Debug, PartialEq, Eq)]
pub struct Reading {
    /// The number of the house.
    pub house: u16,
    /// The number of the poll that it answers.
    pub poll: u16,
    /// Its byte counter.
    pub counter: u64,
}

/// What a frame gives.
#[derive(Clone, Copy, Debug, PartialEq, Eq)]
#[non_exhaustive]
pub struct Received {
    /// The reading that was sent.
    pub reading: Reading,
    /// How many places were wrong, 0 to 23.
    pub wrong: usize,
}

/// Puts the frame of a reading into a buffer of 32 bytes. Checks: 9.
///
/// ```
/// use blentovar::{make_frame, Reading, Refusal};
/// let reading = Reading { house: 12, poll: 1, counter: 34_567 };
/// assert_eq!(make_frame(reading, &mut [0; 31]), Err(Refusal::FrameLength));
/// ```
pub fn make_frame(reading: Reading, frame: &mut [u8]) -> Result<(), Refusal> {
    let Reading {
        house,
        poll,
        counter,
    } = reading;
    Refusal::check(library::make_frame(house, poll, counter, frame))
}

/// The frame of a reading. It begins with three lead bits, the highest of its first byte: 1, 0, 1.
///
/// ```
/// use blentovar::{frame_of, Reading};
/// let reading = Reading { house: 0, poll: 0, counter: 0 };
/// assert_eq!(frame_of(reading)[0] >> 5, 0b101);
/// ```
pub fn frame_of(reading: Reading) -> [u8; FRAME_BYTES] {
    let mut frame = [0; FRAME_BYTES];
    make_frame(reading, &mut frame).expect("32 bytes are a frame");
    frame
}

/// The reading of a frame of 32 bytes. Checks: 9, 10, 6, 11.
///
/// ```
/// use blentovar::{frame_of, read_frame, Reading};
/// let reading = Reading { house: 12, poll: 1, counter: 34_567 };
/// let mut frame = frame_of(reading);
/// frame[5] ^= 129;
/// let received = read_frame(&frame)?;
/// assert_eq!((received.reading, received.wrong), (reading, 2));
/// # Ok::<(), blentovar::Refusal>(())
/// ```
///
/// If its lead is not 1, 0, 1 after mending, the frame is refused. So a line that is stuck at zero, as a receiver with its feed off hears it, or at one gives no reading, also with up to 23 changed bits.
///
/// ```
/// use blentovar::{read_frame, Refusal};
/// assert_eq!(read_frame(&[0; 32]), Err(Refusal::LeadBits));
/// ```
///
/// Frames made by version 0.5 and before carry 0, 0, 0 and are refused by the same number, so sender and reader change together.
pub fn read_frame(frame: &[u8]) -> Result<Received, Refusal> {
    let answer = library::read_frame(frame);
    Refusal::check(answer.number)?;
    let reading = Reading {
        house: answer.house,
        poll: answer.poll,
        counter: answer.counter,
    };
    let wrong = answer.wrong;
    Ok(Received { reading, wrong })
}
