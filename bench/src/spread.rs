//! The spread of a measure, and the cell of a table that says it: the middle, and in brackets the least and the greatest where they differ.

#[derive(Clone, Copy, Debug, PartialEq)]
pub struct Spread {
    pub least: u64,
    pub middle: u64,
    pub greatest: u64,
}

impl Spread {
    pub fn to_cell(self) -> String {
        let middle = grouped(self.middle);
        if self.least == self.greatest {
            return middle;
        }
        let (least, greatest) = (grouped(self.least), grouped(self.greatest));
        format!("{middle} ({least} to {greatest})")
    }

    /// None where the text is not such a cell.
    pub fn from_cell(cell: &str) -> Option<Spread> {
        let (middle, least, greatest) = match cell.split_once(" (") {
            None => (cell, cell, cell),
            Some((middle, rest)) => {
                let (least, greatest) = rest.strip_suffix(')')?.split_once(" to ")?;
                (middle, least, greatest)
            }
        };
        Some(Spread {
            least: ungrouped(least)?,
            middle: ungrouped(middle)?,
            greatest: ungrouped(greatest)?,
        })
    }
}

/// Decimal digits with a comma before every three.
pub fn grouped(number: u64) -> String {
    let digits = number.to_string();
    let threes = digits.as_bytes().rchunks(3).rev();
    let threes: Vec<_> = threes.map(String::from_utf8_lossy).collect();
    threes.join(",")
}

/// The number that is grouped to exactly this text.
fn ungrouped(text: &str) -> Option<u64> {
    let number = text.replace(',', "").parse().ok()?;
    (grouped(number) == text).then_some(number)
}

#[cfg(test)]
mod tests {
    use super::{grouped, Spread};

    #[test]
    fn digits_are_grouped_by_three() {
        assert_eq!(grouped(0), "0");
        assert_eq!(grouped(999), "999");
        assert_eq!(grouped(1000), "1,000");
        assert_eq!(grouped(1234567), "1,234,567");
    }

    #[test]
    fn a_cell_is_read_as_it_was_written() {
        let cells = [
            ("1,529 (1,422 to 1,954)", (1422, 1529, 1954)),
            ("5", (5, 5, 5)),
            ("1,234,567", (1234567, 1234567, 1234567)),
        ];
        for (cell, (least, middle, greatest)) in cells {
            let spread = Spread {
                least,
                middle,
                greatest,
            };
            assert_eq!(Spread::from_cell(cell), Some(spread));
            assert_eq!(spread.to_cell(), cell);
        }
    }

    #[test]
    fn what_is_no_cell_is_not_read() {
        let others = [
            "",
            "-1",
            "1529",
            "15,29",
            "1 (2)",
            "2 (1 to 3",
            "1.5",
            "2 (1 to )",
        ];
        for text in others {
            assert_eq!(Spread::from_cell(text), None, "{text}");
        }
    }
}
