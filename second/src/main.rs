//! Writes what one of the proved programs is to print, the bytes that it is to read, the page of the codes, or how often noise is taken for a reading.

use second::booking::{self, Written};
use second::frames::Link;
use second::{cases, codes_page, every_code, making, night, noise};
use std::io::{Read, Write};

fn main() {
    let mut words = std::env::args().skip(1);
    let subject = words.next().unwrap_or_default();
    let bytes = match subject.as_str() {
        "every_code" => every_code::text().into_bytes(),
        "codes" => codes_page::text().into_bytes(),
        "night" => night::frames(1),
        "nights" => night::frames(6),
        "million" => million(words.next()),
        "noise" => noise::text().into_bytes(),
        "cases" => cases::text(&standard_input()).into_bytes(),
        "making" => frames_of_lines(),
        "listing" => Link::default().listing(&standard_input()).into_bytes(),
        "booking" => with_messages(booking::booking(&standard_input())),
        "book_listing" => with_messages(booking::book_listing(&standard_input())),
        "night_book" => night::book(),
        "nights_book" => night::full_book(),
        _ => usage(),
    };
    std::io::stdout()
        .write_all(&bytes)
        .expect("standard output takes the text");
}

const USAGE: &str = "usage: second SUBJECT
  every_code          what the program every_code is to print
  cases <TEXT         what the program cases is to print for these commands
  listing <FRAMES     what the listing is to print for these frames
  making <LINES       the frames of these lines; on standard error, which lines are bad
  booking <FRAMES     the book of these frames; on standard error, why there is none
  book_listing <BOOK  what the program book_listing is to print for this book
  night               the frames of a made-up night
  nights              the frames of six made-up nights
  night_book          the book of a made-up night
  nights_book         a full book of six made-up nights, with a line before it
  million WRONG       a million frames with WRONG wrong bits each, 0 to 255
  codes               the page docs/CODES.md
  noise               how often noise is taken for a reading
";

fn usage() -> ! {
    eprint!("{USAGE}");
    std::process::exit(2);
}

/// A million frames, each with as many wrong bits as the word says, at most all 255.
fn million(word: Option<String>) -> Vec<u8> {
    match word.map(|word| word.parse()) {
        Some(Ok(wrong @ 0..=255)) => night::spoiled(1_000_000, wrong),
        _ => usage(),
    }
}

/// The frames of typed lines; the lines that are refused are named on standard error.
fn frames_of_lines() -> Vec<u8> {
    let made = making::made(&standard_input());
    eprint!("{}", made.messages);
    made.frames
}

/// What a program on poll books writes to standard output; its messages go to standard error.
fn with_messages(written: Written) -> Vec<u8> {
    eprint!("{}", written.messages);
    written.output
}

fn standard_input() -> Vec<u8> {
    let mut bytes = Vec::new();
    std::io::stdin()
        .read_to_end(&mut bytes)
        .expect("standard input can be read");
    bytes
}
