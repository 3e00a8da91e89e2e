//! The kept record: Open, Splice, Decode kept.

use crate::library;
use crate::refusal::Refusal;

/// The bits of a record, which is also the largest n.
pub const BITS: usize = 1023;

/// The sums of a record, which is also the largest t.
pub const SUMS: usize = 255;

/// A received word with its odd sums S_1, S_3, .. S_(2t-1). It may be built by hand, from [`Kept::zeros`]: what stands past n bits and t sums is neither looked at nor changed.
#[repr(C)]
#[derive(Clone, Debug, PartialEq, Eq)]
#[non_exhaustive]
pub struct Kept {
    /// The m of its code.
    pub m: usize,
    /// The t of its code.
    pub t: usize,
    /// The word, in the first n of them.
    pub bits: [u8; BITS],
    // The two fields that begin with zero_ stand where a compiler would put padding.
    pub(crate) zero_after_bits: u8,
    /// The odd sums, in the first t of them.
    pub sums: [u16; SUMS],
    pub(crate) zero_after_sums: u16,
}

impl Kept {
    /// A record of zeros, from which one is built by hand. As it is, it belongs to no code and is refused 1.
    ///
    /// ```
    /// use blentovar::{Kept, Refusal};
    /// let mut kept = Kept::zeros();
    /// assert_eq!(kept.splice(0, &[1]), Err(Refusal::FieldSize));
    /// (kept.m, kept.t) = (4, 3);
    /// assert_eq!(kept, Kept::open(4, 3, &[0; 15])?);
    /// # Ok::<(), Refusal>(())
    /// ```
    pub const fn zeros() -> Kept {
        Kept {
            m: 0,
            t: 0,
            bits: [0; BITS],
            zero_after_bits: 0,
            sums: [0; SUMS],
            zero_after_sums: 0,
        }
    }

    /// A record of n received bits, with zeros past them and past the t sums. Checks: 1, 2, 3, 5.
    ///
    /// ```
    /// let kept = blentovar::Kept::open(4, 3, &[1, 1, 1, 1, 0, 0, 0, 0, 0, 0, 0, 0, 0, 0, 0])?;
    /// assert_eq!(kept.sums[..3], [15, 15, 1]);
    /// # Ok::<(), blentovar::Refusal>(())
    /// ```
    pub fn open(m: usize, t: usize, word: &[u8]) -> Result<Kept, Refusal> {
        let answer = library::open(m, t, word);
        Refusal::check_told(answer.told).map(|()| answer.record)
    }

    /// Replaces places from `start` on and adds the sums of those that changed to the stored ones. Refused, the record is as it was. Checks: 1, 2, 7, 12, 5.
    ///
    /// ```
    /// use blentovar::{Kept, Refusal};
    /// let mut kept = Kept::open(4, 3, &[0; 15])?;
    /// kept.splice(0, &[1, 1, 1, 0, 1])?;
    /// assert_eq!(kept.sums[..3], [4, 10, 6]);
    /// assert_eq!(kept.splice(15, &[1]), Err(Refusal::StretchEnd));
    /// let bad_bit = Refusal::BitAboveOne { buffer: 0, place: 2 };
    /// assert_eq!(kept.splice(10, &[1, 0, 2]), Err(bad_bit));
    /// # Ok::<(), Refusal>(())
    /// ```
    pub fn splice(&mut self, start: usize, stretch: &[u8]) -> Result<(), Refusal> {
        let answer = library::splice(self.clone(), start, stretch);
        // A refused splice gives back the record that it got.
        *self = answer.record;
        Refusal::check_told(answer.told)
    }

    /// Mends the stored bits by the stored sums, into buffers like those of [`decode`](crate::decode). Checks: 1, 2, 7, 4 (word, then list), 6.
    ///
    /// ```
    /// let mut by_hand = blentovar::Kept::zeros();
    /// (by_hand.m, by_hand.t) = (4, 2);
    /// by_hand.sums[..2].copy_from_slice(&[8, 10]);
    /// let (mut word, mut list) = ([0; 15], [0; 2]);
    /// assert_eq!(by_hand.decode(&mut word, &mut list)?, 1);
    /// assert_eq!((word[3], list), (1, [3, 0]));
    /// # Ok::<(), blentovar::Refusal>(())
    /// ```
    pub fn decode(&self, word: &mut [u8], list: &mut [u16]) -> Result<usize, Refusal> {
        let answer = library::decode_kept(self.clone(), word, list);
        Refusal::check(answer.number).map(|()| answer.wrong)
    }
}
