//! The functions of the static library, called over slices; every unsafe call stands here.
//!
//! What each call rests on: the library is proved to read and write only the places of the slices it is lent; slices that are borrowed for one call do not overlap where one of them is written; an empty slice has a pointer that is not null; and the structs are laid out as the library's are, to whose offsets `layout.rs` holds them.

use crate::kept::Kept;

/// What Sizes and Describe answer.
#[repr(C)]
pub struct SizesAnswer {
    pub number: u32,
    pub zero_after_number: u32,
    pub n: usize,
    pub k: usize,
}

/// What Encode and Edit answer, and with what the answers of Decode, Open and Splice begin.
#[repr(C)]
pub struct Told {
    pub number: u32,
    pub buffer: u32,
    pub place: usize,
}

#[repr(C)]
pub struct DecodeAnswer {
    pub told: Told,
    pub wrong: usize,
}

/// What Open and Splice answer.
#[repr(C)]
pub struct KeptAnswer {
    pub told: Told,
    pub record: Kept,
}

#[repr(C)]
pub struct DecodeKeptAnswer {
    pub number: u32,
    pub zero_after_number: u32,
    pub wrong: usize,
}

#[repr(C)]
pub struct ReadAnswer {
    pub number: u32,
    pub house: u16,
    pub poll: u16,
    pub counter: u64,
    pub wrong: usize,
}

#[repr(C)]
pub struct LookAnswer {
    pub number: u32,
    pub zero_after_number: u32,
    pub count: usize,
}

/// A part of a lent slice.
#[repr(C)]
pub struct PartAnswer {
    pub number: u32,
    pub zero_after_number: u32,
    pub offset: usize,
    pub length: usize,
}

mod raw {
    use super::{DecodeAnswer, DecodeKeptAnswer, Kept, KeptAnswer, LookAnswer};
    use super::{PartAnswer, ReadAnswer, SizesAnswer, Told};

    extern "C" {
        pub fn blentovar_sizes(m: usize, t: usize) -> SizesAnswer;
        pub fn blentovar_describe(
            m: usize,
            t: usize,
            generator: *mut u8,
            generator_places: usize,
        ) -> SizesAnswer;
        pub fn blentovar_encode(
            m: usize,
            t: usize,
            message: *const u8,
            message_places: usize,
            word: *mut u8,
            word_places: usize,
        ) -> Told;
        pub fn blentovar_decode(
            m: usize,
            t: usize,
            received: *const u8,
            received_places: usize,
            word: *mut u8,
            word_places: usize,
            list: *mut u16,
            list_places: usize,
        ) -> DecodeAnswer;
        pub fn blentovar_edit(
            m: usize,
            t: usize,
            word: *mut u8,
            word_places: usize,
            start: usize,
            stretch: *const u8,
            stretch_places: usize,
        ) -> Told;
        pub fn blentovar_open(
            m: usize,
            t: usize,
            word: *const u8,
            word_places: usize,
        ) -> KeptAnswer;
        pub fn blentovar_splice(
            kept: Kept,
            start: usize,
            stretch: *const u8,
            stretch_places: usize,
        ) -> KeptAnswer;
        pub fn blentovar_decode_kept(
            kept: Kept,
            word: *mut u8,
            word_places: usize,
            list: *mut u16,
            list_places: usize,
        ) -> DecodeKeptAnswer;
        pub fn blentovar_make_frame(
            house: u16,
            poll: u16,
            counter: u64,
            frame: *mut u8,
            frame_bytes: usize,
        ) -> u32;
        pub fn blentovar_read_frame(frame: *const u8, frame_bytes: usize) -> ReadAnswer;
        pub fn blentovar_look_at_book(book: *const u8, book_bytes: usize) -> LookAnswer;
        pub fn blentovar_read_book(book: *const u8, book_bytes: usize, i: usize) -> PartAnswer;
        pub fn blentovar_write_book(
            frames: *const u8,
            frames_bytes: usize,
            book: *mut u8,
            book_bytes: usize,
        ) -> u32;
    }
}

pub fn sizes(m: usize, t: usize) -> SizesAnswer {
    // SAFETY: nothing is lent.
    unsafe { raw::blentovar_sizes(m, t) }
}

pub fn describe(m: usize, t: usize, generator: &mut [u8]) -> SizesAnswer {
    // SAFETY: only the places of the slice are written.
    unsafe { raw::blentovar_describe(m, t, generator.as_mut_ptr(), generator.len()) }
}

pub fn encode(m: usize, t: usize, message: &[u8], word: &mut [u8]) -> Told {
    let (from, to) = (message.as_ptr(), word.as_mut_ptr());
    // SAFETY: only the places of the message are read and those of the word written.
    unsafe { raw::blentovar_encode(m, t, from, message.len(), to, word.len()) }
}

pub fn decode(
    m: usize,
    t: usize,
    received: &[u8],
    word: &mut [u8],
    list: &mut [u16],
) -> DecodeAnswer {
    // SAFETY: only the places received are read, and those of the word and the list written.
    unsafe {
        raw::blentovar_decode(
            m,
            t,
            received.as_ptr(),
            received.len(),
            word.as_mut_ptr(),
            word.len(),
            list.as_mut_ptr(),
            list.len(),
        )
    }
}

pub fn edit(m: usize, t: usize, word: &mut [u8], start: usize, stretch: &[u8]) -> Told {
    let (to, from) = (word.as_mut_ptr(), stretch.as_ptr());
    // SAFETY: only the places of the word are read and written, and those of the stretch read.
    unsafe { raw::blentovar_edit(m, t, to, word.len(), start, from, stretch.len()) }
}

pub fn open(m: usize, t: usize, word: &[u8]) -> KeptAnswer {
    // SAFETY: only the places of the slice are read.
    unsafe { raw::blentovar_open(m, t, word.as_ptr(), word.len()) }
}

pub fn splice(kept: Kept, start: usize, stretch: &[u8]) -> KeptAnswer {
    // SAFETY: only the places of the slice are read; the record goes in and out by value.
    unsafe { raw::blentovar_splice(kept, start, stretch.as_ptr(), stretch.len()) }
}

pub fn decode_kept(kept: Kept, word: &mut [u8], list: &mut [u16]) -> DecodeKeptAnswer {
    let (to, places) = (word.as_mut_ptr(), list.as_mut_ptr());
    // SAFETY: only the places of the two slices are written; the record goes in by value.
    unsafe { raw::blentovar_decode_kept(kept, to, word.len(), places, list.len()) }
}

pub fn make_frame(house: u16, poll: u16, counter: u64, frame: &mut [u8]) -> u32 {
    // SAFETY: only the bytes of the slice are written.
    unsafe { raw::blentovar_make_frame(house, poll, counter, frame.as_mut_ptr(), frame.len()) }
}

pub fn read_frame(frame: &[u8]) -> ReadAnswer {
    // SAFETY: only the bytes of the slice are read.
    unsafe { raw::blentovar_read_frame(frame.as_ptr(), frame.len()) }
}

pub fn look_at_book(book: &[u8]) -> LookAnswer {
    // SAFETY: only the bytes of the slice are read.
    unsafe { raw::blentovar_look_at_book(book.as_ptr(), book.len()) }
}

pub fn read_book(book: &[u8], i: usize) -> PartAnswer {
    // SAFETY: only the bytes of the slice are read.
    unsafe { raw::blentovar_read_book(book.as_ptr(), book.len(), i) }
}

pub fn write_book(frames: &[u8], book: &mut [u8]) -> u32 {
    let (from, to) = (frames.as_ptr(), book.as_mut_ptr());
    // SAFETY: only the bytes of the frames are read and those of the book written.
    unsafe { raw::blentovar_write_book(from, frames.len(), to, book.len()) }
}
