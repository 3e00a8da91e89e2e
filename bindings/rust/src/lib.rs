//! Error-correcting codes: 232 binary BCH codes with words of 7 to 1,023 bits, the reading frame of the ridge link, and the poll book that holds frames.
//!
//! A message is sent in a word that also holds parity. In the word that arrives, up to t wrong places are found and mended; if no code word is that near, it is refused. The work is done by the static library `libblentovar.a`, whose every function is proved to meet its promise. This crate calls it over slices, which rules out bad pointers and buffers that overlap. It needs neither the standard library nor a heap.
//!
//! # How to link it
//!
//! The library is x86-64 Linux code. `./library` in the repository of Blentovar writes it to `target/staticlib`, where the crate looks for it; if it is elsewhere, the environment variable `BLENTOVAR_LIB_DIR` names its folder. `docs/INTEGRATING.md` in the repository says what the library needs and how much stack each call takes, and `examples/rust` there is a whole program.
//!
//! # How it works
//!
//! Bits are lent one to a byte, 0 or 1, except in frames and in poll books; place i of a word is the coefficient of x^i. The code of (m, t) has n = 2^m - 1 places, k of them for the message, and mends up to t wrong places; [`sizes`] gives n and k. Lengths are exact: a longer buffer is refused as a shorter one is. Every operation checks what it is lent in a fixed order, and its page names the numbers of the [`Refusal`]s in that order. After a refusal no lent buffer has changed.
//!
//! ```
//! let mut sent = [0; 15];
//! blentovar::encode(4, 3, &[1, 0, 1, 0, 1], &mut sent)?;
//! let mut received = sent;
//! received[9] ^= 1;
//! let (mut word, mut list) = ([0; 15], [0; 3]);
//! let wrong = blentovar::decode(4, 3, &received, &mut word, &mut list)?;
//! assert_eq!((wrong, list, word), (1, [9, 0, 0], sent));
//! # Ok::<(), blentovar::Refusal>(())
//! ```

#![no_std]
#![warn(missing_docs)]

mod books;
mod frames;
mod kept;
mod layout;
mod library;
mod refusal;
mod words;

pub use books::{look_at_book, read_book, write_book, BOOK_FRAMES, TRAILER_BYTES};
pub use frames::{frame_of, make_frame, read_frame, Reading, Received, FRAME_BYTES};
pub use kept::{Kept, BITS, SUMS};
pub use refusal::Refusal;
pub use words::{decode, describe, edit, encode, sizes, Code};
