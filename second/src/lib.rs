//! A second program that shares no code with the proved crates; what it prints is compared with what they print. Its decoder uses another method, but was written by someone who had read theirs.

pub mod answers;
pub mod book;
pub mod booking;
pub mod cases;
pub mod codes;
pub mod codes_page;
pub mod editing;
pub mod euclid;
pub mod every_code;
pub mod field;
pub mod frames;
pub mod keeping;
pub mod kept;
pub mod made_up;
pub mod making;
pub mod mending;
pub mod natural;
pub mod nearest;
pub mod night;
pub mod noise;
pub mod polynomials;
pub mod sheet;
pub mod tables;
pub mod tally;
pub mod words;
