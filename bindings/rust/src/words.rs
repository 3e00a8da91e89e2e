//! Sizes, Describe, Encode, Decode and Edit.

use crate::library::{self, SizesAnswer};
use crate::refusal::Refusal;

/// The sizes of a code.
#[derive(Clone, Copy, Debug, PartialEq, Eq)]
#[non_exhaustive]
pub struct Code {
    /// The places of a word.
    pub n: usize,
    /// The places of a message.
    pub k: usize,
}

impl Code {
    fn checked(answer: SizesAnswer) -> Result<Code, Refusal> {
        let SizesAnswer { number, n, k, .. } = answer;
        Refusal::check(number).map(|()| Code { n, k })
    }
}

/// The sizes of the code of (m, t), by which buffers for the other operations are made. Checks: 1, 2.
///
/// ```
/// use blentovar::{encode, sizes};
/// let code = sizes(8, 23)?;
/// assert_eq!((code.n, code.k), (255, 99));
/// let (message, mut word) = (vec![1; code.k], vec![0; code.n]);
/// encode(8, 23, &message, &mut word)?;
/// assert_eq!(word[code.n - code.k..], message);
/// # Ok::<(), blentovar::Refusal>(())
/// ```
pub fn sizes(m: usize, t: usize) -> Result<Code, Refusal> {
    Code::checked(library::sizes(m, t))
}

/// The code of (m, t) with its generator, whose place i gets the coefficient of x^i. The generator's buffer has n - k + 1 places; [`sizes`] gives n and k. Checks: 1, 2, 4.
///
/// ```
/// use blentovar::{describe, sizes};
/// let code = sizes(4, 1)?;
/// let mut generator = vec![0; code.n - code.k + 1];
/// assert_eq!(describe(4, 1, &mut generator)?, code);
/// assert_eq!(generator, [1, 1, 0, 0, 1]);
/// # Ok::<(), blentovar::Refusal>(())
/// ```
pub fn describe(m: usize, t: usize, generator: &mut [u8]) -> Result<Code, Refusal> {
    Code::checked(library::describe(m, t, generator))
}

/// Puts the code word that carries a message of k bits into a buffer of n places. Checks: 1, 2, 3, 4, 5.
///
/// ```
/// let mut word = [0; 15];
/// blentovar::encode(4, 1, &[1, 0, 0, 0, 0, 0, 0, 0, 0, 0, 0], &mut word)?;
/// assert_eq!(word, [1, 1, 0, 0, 1, 0, 0, 0, 0, 0, 0, 0, 0, 0, 0]);
/// # Ok::<(), blentovar::Refusal>(())
/// ```
pub fn encode(m: usize, t: usize, message: &[u8], word: &mut [u8]) -> Result<(), Refusal> {
    Refusal::check_told(library::encode(m, t, message, word))
}

/// Puts the code word within t of n received bits into a buffer of n places, the wrong places ascending and then zeros into a list of t places, and gives how many were wrong. Checks: 1, 2, 3, 4 (word, then list), 5, 6.
///
/// ```
/// let (mut word, mut list) = ([0; 7], [0; 1]);
/// let wrong = blentovar::decode(3, 1, &[1, 1, 0, 0, 0, 0, 0], &mut word, &mut list)?;
/// assert_eq!((wrong, list), (1, [3]));
/// assert_eq!(word, [1, 1, 0, 1, 0, 0, 0]);
/// # Ok::<(), blentovar::Refusal>(())
/// ```
pub fn decode(
    m: usize,
    t: usize,
    received: &[u8],
    word: &mut [u8],
    list: &mut [u16],
) -> Result<usize, Refusal> {
    let answer = library::decode(m, t, received, word, list);
    Refusal::check_told(answer.told).map(|()| answer.wrong)
}

/// Replaces message places of a word of n places, from message place `start` on, and brings its parity up to date; the word may be no code word. Checks: 1, 2, 3, 12, 5 (word, then stretch).
///
/// ```
/// use blentovar::{edit, Refusal};
/// let mut word = [0; 15];
/// edit(4, 3, &mut word, 0, &[1, 0, 1, 0, 1])?;
/// assert_eq!(word, [1, 1, 1, 0, 0, 0, 1, 0, 0, 1, 1, 0, 1, 0, 1]);
/// assert_eq!(edit(4, 3, &mut word, 5, &[1]), Err(Refusal::StretchEnd));
/// let bad_bit = Refusal::BitAboveOne { buffer: 1, place: 1 };
/// assert_eq!(edit(4, 3, &mut word, 0, &[1, 3]), Err(bad_bit));
/// # Ok::<(), Refusal>(())
/// ```
pub fn edit(
    m: usize,
    t: usize,
    word: &mut [u8],
    start: usize,
    stretch: &[u8],
) -> Result<(), Refusal> {
    Refusal::check_told(library::edit(m, t, word, start, stretch))
}
