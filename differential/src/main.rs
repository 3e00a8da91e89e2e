//! Runs operations with random arguments, good and bad, by the proved code and by the second program, and compares all that can be seen after each.

mod books;
mod call;
mod draw;
mod drawing;
mod drawn_books;
mod frames;
mod records;
mod tally;
mod words;

use draw::Draw;
use drawing::Drawing;
use second::answers::Answers;
use tally::Tally;

const COUNT: u64 = 200_000;
const SEED: u64 = 1;

fn main() {
    let count = argument(1).unwrap_or(COUNT);
    let seed = argument(2).unwrap_or(SEED);
    let mut drawing = Drawing::new(Draw::new(seed));
    let mut answers = Answers::default();
    let mut tally = Tally::default();
    for operation in 1..=count {
        let call = drawing.call();
        let expected = call.expected(&mut answers);
        let proved = call.proved();
        if proved != expected {
            println!("differential: seed {seed}, operation {operation} differs: {call:?}");
            println!("the second program: {expected:?}");
            println!("the proved code: {proved:?}");
            std::process::exit(1);
        }
        tally.add(call.name(), expected.told.number);
    }
    tally.lines().iter().for_each(|line| println!("{line}"));
    println!("differential: {count} operations, seed {seed}, nothing differs");
}

/// The number that stands there, if anything does.
fn argument(place: usize) -> Option<u64> {
    let text = std::env::args().nth(place)?;
    let Ok(number) = text.parse() else {
        eprintln!("usage: differential [OPERATIONS [SEED]]");
        std::process::exit(2);
    };
    Some(number)
}
