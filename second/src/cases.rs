//! What crates/cases is to write for a text of commands: what each call answers, and what every lent buffer holds after it.

use crate::answers::{Answers, Mended, Sizes};
use crate::frames::Reading;
use crate::kept::Kept;
use crate::sheet::{plain, Refusal};

/// What there is room for: bytes of a text, places of a word and of a list.
const TEXT_ROOM: usize = 262_144;
const WORD_ROOM: usize = 32_768;
const LIST_ROOM: usize = 1_024;

/// The numbers of a line. A word line may name 2,048 places, which is fewer than a word may have.
const NUMBER_ROOM: usize = 4_097;

pub fn text(bytes: &[u8]) -> String {
    if bytes.len() >= TEXT_ROOM {
        return String::from("too long a text\n");
    }
    let mut bench = Bench {
        word: vec![],
        stretch: vec![],
        record: Kept::zeros(),
        answers: Answers::default(),
    };
    let lines = bytes.split(|byte| *byte == b'\n').enumerate();
    lines.map(|(i, line)| bench.run(i + 1, line)).collect()
}

/// What is lent from one line to the next.
struct Bench {
    word: Vec<u8>,
    stretch: Vec<u8>,
    record: Kept,
    answers: Answers,
}

impl Bench {
    /// What a line makes the program write.
    fn run(&mut self, number: usize, line: &[u8]) -> String {
        if line.is_empty() || line[0] == b'#' {
            return String::new();
        }
        match self.run_command(line) {
            Some(answer) if answer.is_empty() => answer,
            Some(answer) => format!("{number} {answer}\n"),
            None => format!("{number} not understood\n"),
        }
    }

    /// The answer, which is empty for a line that calls nothing, or nothing where the line is not understood.
    fn run_command(&mut self, line: &[u8]) -> Option<String> {
        let mut parts = line.split(|byte| *byte == b' ');
        let name = parts.next()?;
        let numbers: Vec<u64> = parts.map(number).collect::<Option<_>>()?;
        if numbers.len() > NUMBER_ROOM {
            return None;
        }
        match name {
            b"word" => lend(&mut self.word, with_places(&numbers)),
            b"fill" => lend(&mut self.word, filled(&numbers)),
            b"stretch" => lend(&mut self.stretch, with_places(&numbers)),
            b"code" | b"bit" | b"sum" => self.change_record(name, &numbers),
            _ => self.call(name, &numbers),
        }
    }

    fn change_record(&mut self, name: &[u8], numbers: &[u64]) -> Option<String> {
        let &[first, second] = numbers else {
            return None;
        };
        match name {
            b"code" => (self.record.m, self.record.t) = (first, second),
            b"bit" => *place_of(&mut self.record.bits, first)? = second.try_into().ok()?,
            _ => *place_of(&mut self.record.sums, first)? = second.try_into().ok()?,
        }
        Some(String::new())
    }

    fn call(&mut self, name: &[u8], numbers: &[u64]) -> Option<String> {
        match (name, numbers) {
            (b"sizes", &[m, t]) => Some(self.sizes(m, t)),
            (b"describe", &[m, t, places]) => Some(self.describe(m, t, word_room(places)?)),
            (b"encode", &[m, t, places]) => Some(self.encode(m, t, word_room(places)?)),
            (b"decode", &[m, t, places, listing]) => {
                Some(self.decode(m, t, word_room(places)?, list_room(listing)?))
            }
            (b"edit", &[m, t, start]) => Some(self.edit(m, t, start)),
            (b"open", &[m, t]) => Some(self.open(m, t)),
            (b"splice", &[start]) => Some(self.splice(start)),
            (b"kept", &[places, listing]) => {
                Some(self.decode_kept(word_room(places)?, list_room(listing)?))
            }
            (b"make", &[house, poll, counter, places]) => {
                let reading = Reading {
                    house: house.try_into().ok()?,
                    poll: poll.try_into().ok()?,
                    counter,
                };
                Some(self.make(reading, word_room(places)?))
            }
            (b"read", &[]) => Some(self.read()),
            (b"look", &[]) => Some(self.look()),
            (b"part", &[i]) => Some(self.part(i)),
            (b"book", &[places]) => Some(self.book(word_room(places)?)),
            _ => None,
        }
    }

    fn sizes(&self, m: u64, t: u64) -> String {
        match self.answers.sizes(m, t) {
            Ok(Sizes { n, k }) => format!("0 {n} {k}"),
            Err(refusal) => format!("{} 0 0", refusal.number),
        }
    }

    fn describe(&mut self, m: u64, t: u64, places: usize) -> String {
        match self.answers.describe(m, t, places) {
            Ok(code) => {
                let generator = shown(&code.generator);
                format!("0 {} {} generator{generator}", code.n, code.k)
            }
            Err(refusal) => format!("{} 0 0 generator kept", refusal.number),
        }
    }

    fn encode(&mut self, m: u64, t: u64, places: usize) -> String {
        let word = self.answers.encode(m, t, &self.word, places);
        format!("{} word{}", told(&word), lent(word.ok()))
    }

    fn decode(&self, m: u64, t: u64, places: usize, listing: usize) -> String {
        let found = self.answers.decode(m, t, &self.word, places, listing);
        decoded(told(&found), found)
    }

    fn edit(&mut self, m: u64, t: u64, start: u64) -> String {
        let word = self.answers.edit(m, t, &self.word, start, &self.stretch);
        let told = told(&word);
        let changed = word.ok().filter(|word| *word != self.word);
        format!("{told} word{}", lent(changed))
    }

    fn open(&mut self, m: u64, t: u64) -> String {
        let opened = self.answers.open(m, t, &self.word);
        let told = told(&opened);
        self.record = opened.unwrap_or(Kept::zeros());
        record(told, &self.record)
    }

    fn splice(&mut self, start: u64) -> String {
        let spliced = self.answers.splice(&self.record, start, &self.stretch);
        let told = told(&spliced);
        if let Ok(spliced) = spliced {
            self.record = spliced;
        }
        record(told, &self.record)
    }

    fn decode_kept(&self, places: usize, listing: usize) -> String {
        let found = self.answers.decode_kept(&self.record, places, listing);
        decoded(number_of(&found).to_string(), found)
    }

    fn make(&self, reading: Reading, places: usize) -> String {
        let made = self.answers.make_frame(reading, places);
        let frame = made.ok().map(|frame| frame.to_vec());
        format!("{} frame{}", number_of(&made), lent(frame))
    }

    fn read(&self) -> String {
        match self.answers.read_frame(&self.word) {
            Ok((reading, wrong)) => {
                let Reading {
                    house,
                    poll,
                    counter,
                } = reading;
                format!("0 {house} {poll} {counter} {wrong}")
            }
            Err(refusal) => format!("{} 0 0 0 0", refusal.number),
        }
    }

    fn look(&self) -> String {
        let count = self.answers.look_at_book(&self.word);
        format!("{} {}", number_of(&count), count.unwrap_or(0))
    }

    fn part(&self, i: u64) -> String {
        let part = self.answers.read_book(&self.word, i);
        let number = number_of(&part);
        let part = part.unwrap_or(0..0);
        format!("{number} {} {}", part.start, part.len())
    }

    fn book(&self, places: usize) -> String {
        let book = self.answers.write_book(&self.word, places);
        format!("{} book{}", number_of(&book), lent(book.ok()))
    }
}

/// Digits only, at least one, and below 2^64.
fn number(digits: &[u8]) -> Option<u64> {
    if !digits.iter().all(u8::is_ascii_digit) {
        return None;
    }
    std::str::from_utf8(digits).ok()?.parse().ok()
}

/// A line that says what is lent, and does not say it rightly, leaves nothing lent.
fn lend(slot: &mut Vec<u8>, word: Option<Vec<u8>>) -> Option<String> {
    let answer = word.as_ref().map(|_| String::new());
    *slot = word.unwrap_or_default();
    answer
}

/// A length, then pairs of a place and what it holds.
fn with_places(numbers: &[u64]) -> Option<Vec<u8>> {
    let (length, pairs) = numbers.split_first()?;
    let mut word = vec![0; word_room(*length)?];
    for pair in pairs.chunks(2) {
        let &[place, value] = pair else {
            return None;
        };
        *place_of(&mut word, place)? = value.try_into().ok()?;
    }
    Some(word)
}

fn filled(numbers: &[u64]) -> Option<Vec<u8>> {
    let &[length, value] = numbers else {
        return None;
    };
    Some(vec![value.try_into().ok()?; word_room(length)?])
}

fn place_of<T>(places: &mut [T], place: u64) -> Option<&mut T> {
    places.get_mut(usize::try_from(place).ok()?)
}

fn word_room(places: u64) -> Option<usize> {
    places.try_into().ok().filter(|n| *n <= WORD_ROOM)
}

fn list_room(places: u64) -> Option<usize> {
    places.try_into().ok().filter(|n| *n <= LIST_ROOM)
}

/// What was told, the mended word and its wrong places; the zeros at the end of the list do not show.
fn decoded(told: String, found: Result<Mended, Refusal>) -> String {
    let Ok(Mended { word, places }) = found else {
        return format!("{told} 0 word kept list kept");
    };
    let list: Vec<u16> = places.iter().map(|place| *place as u16).collect();
    let count = places.len();
    format!("{told} {count} word{} list{}", shown(&word), shown(&list))
}

fn record(told: String, record: &Kept) -> String {
    let Kept { m, t, bits, sums } = record;
    format!("{told} {m} {t} bits{} sums{}", shown(bits), shown(sums))
}

/// The sheet's number, 0 where nothing is refused.
fn number_of<T>(answer: &Result<T, Refusal>) -> u32 {
    answer.as_ref().err().map_or(0, |refusal| refusal.number)
}

/// The sheet's number, the buffer and the place, zeros where nothing is refused.
fn told<T>(answer: &Result<T, Refusal>) -> String {
    let Refusal {
        number,
        buffer,
        place,
    } = answer.as_ref().err().copied().unwrap_or(plain(0));
    format!("{number} {buffer} {place}")
}

/// What a buffer holds after a call, if it does not hold what it did before.
fn lent(written: Option<Vec<u8>>) -> String {
    written.map_or(String::from(" kept"), |bytes| shown(&bytes))
}

/// The places that do not hold 0.
fn shown<T: Copy + Into<u64>>(values: &[T]) -> String {
    let values = values.iter().map(|value| (*value).into()).enumerate();
    values
        .filter(|(_, value)| *value != 0)
        .map(|(place, value)| format!(" {place}={value}"))
        .collect()
}

#[cfg(test)]
mod tests {
    use super::text;

    #[test]
    fn calls_checked_by_hand() {
        let commands = "# a comment\n\nword 5 0 1 2 1 4 1\nencode 4 3 15\nencode 4 4 15\nword 15 0 1 1 1 2 1 4 1\ndecode 4 3 15 3\n";
        let expected = "4 0 0 0 word 0=1 1=1 2=1 6=1 9=1 10=1 12=1 14=1\n5 2 0 0 word kept\n7 0 0 0 3 word 0=1 1=1 2=1 4=1 5=1 8=1 10=1 list 0=5 1=8 2=10\n";
        assert_eq!(text(commands.as_bytes()), expected);
    }

    #[test]
    fn the_bad_bit_is_told() {
        let commands = "word 15\nopen 4 3\nstretch 3 0 1 2 2\nsplice 10\nstretch 2 0 1 1 3\nedit 4 3 0\nword 15 7 2\nedit 4 3 0\n";
        let expected =
            "2 0 0 0 4 3 bits sums\n4 5 0 2 4 3 bits sums\n6 5 1 1 word kept\n8 5 0 7 word kept\n";
        assert_eq!(text(commands.as_bytes()), expected);
    }

    #[test]
    fn sizes_stand_beside_the_number() {
        let commands = "sizes 4 3\nsizes 10 255\nsizes 11 3\nsizes 4 4\n";
        let expected = "1 0 15 5\n2 0 1023 11\n3 1 0 0\n4 2 0 0\n";
        assert_eq!(text(commands.as_bytes()), expected);
    }

    #[test]
    fn the_record_and_the_word_stay_from_line_to_line() {
        let commands = "word 15\nopen 4 3\nstretch 4 0 1 1 1 2 1 3 1\nsplice 0\nkept 15 3\nstretch 1 0 1\nsplice 15\nedit 4 3 18446744073709551615\n";
        let expected = "2 0 0 0 4 3 bits sums\n4 0 0 0 4 3 bits 0=1 1=1 2=1 3=1 sums 0=15 1=15 2=1\n5 6 0 word kept list kept\n7 12 0 0 4 3 bits 0=1 1=1 2=1 3=1 sums 0=15 1=15 2=1\n8 12 0 0 word kept\n";
        assert_eq!(text(commands.as_bytes()), expected);
    }

    #[test]
    fn books_are_looked_at_read_and_written() {
        let commands = "word 49 0 9 33 80 34 79 35 76 36 76 40 1 44 32\nlook\npart 0\npart 1\nword 16 0 80\nlook\npart 0\nword 32 31 7\nbook 48\nbook 47\nfill 33 7\nbook 49\n";
        let expected = "2 0 1\n3 0 1 32\n4 15 0 0\n6 13 0\n7 13 0 0\n9 0 book 31=7 32=80 33=79 34=76 35=76 39=1 43=32\n10 4 book kept\n12 9 book kept\n";
        assert_eq!(text(commands.as_bytes()), expected);
    }

    #[test]
    fn a_line_has_at_most_4097_numbers() {
        let most = format!("word 32768{}", " 0 0".repeat(2048));
        assert_eq!(text(most.as_bytes()), "");
        let more = format!("word 32768{}", " 0 0".repeat(2049));
        assert_eq!(text(more.as_bytes()), "1 not understood\n");
    }

    #[test]
    fn what_is_not_understood_is_said() {
        let commands = "mend 4 3\nword 3 3 1\nword 3 0\nword 3 0 256\ndescribe 4 3\ndescribe 4 +3 11\ndescribe 4 3 32769\nbit 1023 1\nedit 4 3 18446744073709551616\nsizes\nsizes 4\nsizes 4 3 15\nsizes 4  3\nread ";
        let expected: String = (1..=14).map(|i| format!("{i} not understood\n")).collect();
        assert_eq!(text(commands.as_bytes()), expected);
    }
}
