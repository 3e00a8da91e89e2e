//! What a program does with Blentovar: it mends a word, reads a damaged frame and a poll book, and says two refusals in words.

use blentovar::{decode, edit, encode, frame_of, look_at_book, read_book, read_frame, sizes};
use blentovar::{write_book, Reading, Refusal, FRAME_BYTES, TRAILER_BYTES};
use std::error::Error;
use std::process::ExitCode;

fn main() -> ExitCode {
    match run() {
        Ok(()) => ExitCode::SUCCESS,
        Err(why) => {
            eprintln!("mend: {why}");
            ExitCode::FAILURE
        }
    }
}

fn run() -> Result<(), Box<dyn Error>> {
    mend_a_word(4, 3)?;
    read_a_damaged_frame()?;
    read_a_book()?;
    be_refused()?;
    be_told_which_bit()
}

fn mend_a_word(m: usize, t: usize) -> Result<(), Box<dyn Error>> {
    let code = sizes(m, t)?;
    let (n, k) = (code.n, code.k);
    println!("m {m}, t {t}: {n} places, {k} of them for the message");
    let mut sent = vec![0; n];
    encode(m, t, &[1, 0, 1, 0, 1], &mut sent)?;
    print_numbers("sent    ", &sent);

    let mut received = sent.clone();
    for place in [0, 9, 14] {
        received[place] ^= 1;
    }
    print_numbers("received", &received);

    let (mut mended, mut list) = (vec![0; n], vec![0; t]);
    let wrong = decode(m, t, &received, &mut mended, &mut list)?;
    print_numbers("mended  ", &mended);
    print_numbers(&format!("{wrong} wrong places:"), &list[..wrong]);
    if mended != sent {
        return Err("the mended word is not the sent one".into());
    }
    println!("the mended word is the sent one");
    Ok(())
}

fn print_numbers<T: ToString>(name: &str, numbers: &[T]) {
    let texts: Vec<String> = numbers.iter().map(T::to_string).collect();
    println!("{name} {}", texts.join(" "));
}

fn sent_by(house: u16, poll: u16, counter: u64) -> [u8; FRAME_BYTES] {
    frame_of(Reading {
        house,
        poll,
        counter,
    })
}

fn print_reading(frame: &[u8]) -> Result<(), Box<dyn Error>> {
    let received = read_frame(frame)?;
    let Reading {
        house,
        poll,
        counter,
    } = received.reading;
    let wrong = received.wrong;
    println!("house {house}, poll {poll}, counter {counter}, {wrong} wrong places");
    Ok(())
}

fn read_a_damaged_frame() -> Result<(), Box<dyn Error>> {
    let mut frame = sent_by(12, 1, 34_567);
    // The bits with the sent numbers 25 and 26.
    frame[3] ^= 0x60;
    print_reading(&frame)
}

fn read_a_book() -> Result<(), Box<dyn Error>> {
    let frames = [sent_by(12, 2, 34_890), sent_by(13, 2, 987)].concat();
    let mut book = vec![0; frames.len() + TRAILER_BYTES];
    write_book(&frames, &mut book)?;

    let count = look_at_book(&book)?;
    println!("a book of {count} frames");
    for i in 0..count {
        print_reading(read_book(&book, i)?)?;
    }
    Ok(())
}

fn be_refused() -> Result<(), Box<dyn Error>> {
    let received = [1, 1, 1, 1, 0, 0, 0, 0, 0, 0, 0, 0, 0, 0, 0];
    let (mut word, mut list) = ([0; 15], [0; 3]);
    match decode(4, 3, &received, &mut word, &mut list) {
        Err(refusal @ Refusal::NothingNear) => {
            println!("refused {}: {refusal}", refusal.number());
            Ok(())
        }
        Err(other) => Err(other.into()),
        Ok(_) => Err("a word far from every code word was mended".into()),
    }
}

fn be_told_which_bit() -> Result<(), Box<dyn Error>> {
    match edit(4, 3, &mut [0; 15], 0, &[1, 3]) {
        Err(refusal @ Refusal::BitAboveOne { .. }) => {
            println!("refused {}: {refusal}", refusal.number());
            Ok(())
        }
        Err(other) => Err(other.into()),
        Ok(()) => Err("a stretch that holds 3 was taken".into()),
    }
}
