//! Compares the structs with the sizes and offsets that include/blentovar.h gives them, while the crate is compiled.
//!
//! The library is 64-bit code, so on other processors there is nothing to compare with.

#![cfg(target_pointer_width = "64")]

use crate::kept::Kept;
use crate::library::{DecodeAnswer, DecodeKeptAnswer, KeptAnswer, LookAnswer};
use crate::library::{PartAnswer, ReadAnswer, SizesAnswer, Told};
use core::mem::{offset_of, size_of};

/// A struct and its bytes, then each field and the byte at which it starts.
macro_rules! laid_out {
    ($name:ident: $bytes:literal; $($field:ident: $start:literal),+) => {
        const _: () = {
            assert!(size_of::<$name>() == $bytes);
            $(assert!(offset_of!($name, $field) == $start);)+
        };
    };
}

laid_out!(SizesAnswer: 24; number: 0, zero_after_number: 4, n: 8, k: 16);
laid_out!(Told: 16; number: 0, buffer: 4, place: 8);
laid_out!(DecodeAnswer: 24; told: 0, wrong: 16);
laid_out!(Kept: 1552; m: 0, t: 8, bits: 16, zero_after_bits: 1039, sums: 1040, zero_after_sums: 1550);
laid_out!(KeptAnswer: 1568; told: 0, record: 16);
laid_out!(DecodeKeptAnswer: 16; number: 0, zero_after_number: 4, wrong: 8);
laid_out!(ReadAnswer: 24; number: 0, house: 4, poll: 6, counter: 8, wrong: 16);
laid_out!(LookAnswer: 16; number: 0, zero_after_number: 4, count: 8);
laid_out!(PartAnswer: 24; number: 0, zero_after_number: 4, offset: 8, length: 16);
