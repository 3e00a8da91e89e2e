//! The lines that the driver prints.

use crate::spread::Spread;

/// One case measured in one way; for instructions also how often each address was met.
#[derive(Debug, PartialEq)]
pub struct Line {
    pub measure: String,
    pub code: String,
    pub operation: String,
    pub call: String,
    pub spread: Spread,
    pub stops: Vec<(u64, u64)>,
}

pub fn parse(text: &str) -> Vec<Line> {
    let mut lines: Vec<Line> = Vec::new();
    for row in text.lines() {
        let columns: Vec<&str> = row.split('\t').collect();
        match columns[..] {
            ["at", address, count] => {
                let case = lines.last_mut().expect("addresses follow their case");
                let address = u64::from_str_radix(address, 16).expect("an address");
                case.stops.push((address, number(count)));
            }
            [measure, code, operation, call, least, middle, greatest] => lines.push(Line {
                measure: measure.to_string(),
                code: code.to_string(),
                operation: operation.to_string(),
                call: call.to_string(),
                spread: Spread {
                    least: number(least),
                    middle: number(middle),
                    greatest: number(greatest),
                },
                stops: Vec::new(),
            }),
            _ => panic!("not a line of the driver: {row}"),
        }
    }
    lines
}

fn number(text: &str) -> u64 {
    text.parse().expect("a number")
}

/// The different values of a property, in the order in which they come.
pub fn in_order<'a>(lines: &[&'a Line], property: impl Fn(&'a Line) -> &'a str) -> Vec<&'a str> {
    let mut values = Vec::new();
    for line in lines {
        if !values.contains(&property(line)) {
            values.push(property(line));
        }
    }
    values
}

/// The different calls, those of one operation together.
pub fn calls<'a>(lines: &[&'a Line]) -> Vec<&'a str> {
    let of_operation = |operation: &str| {
        let its_lines: Vec<&Line> = lines
            .iter()
            .copied()
            .filter(|line| line.operation == operation)
            .collect();
        in_order(&its_lines, |line| &line.call)
    };
    let operations = in_order(lines, |line| &line.operation);
    operations.into_iter().flat_map(of_operation).collect()
}

#[cfg(test)]
mod tests {
    use super::{calls, parse, Line};

    #[test]
    fn addresses_go_to_the_case_before_them() {
        let text = "stack\t(15,5,3)\tOpen\tOpen\t1\t2\t3\ninstructions\t(15,5,3)\tSplice\tSplice of 1\t7\t8\t9\nat\t40a\t5\n";
        let lines = parse(text);
        assert_eq!(lines.len(), 2);
        assert!(lines[0].stops.is_empty());
        assert_eq!(lines[1].stops, [(0x40a, 5)]);
        let spread = &lines[1].spread;
        assert_eq!((spread.least, spread.middle, spread.greatest), (7, 8, 9));
    }

    #[test]
    fn calls_of_one_operation_stand_together() {
        let text = "x\ta\tEdit\tEdit of 1\t0\t0\t0\nx\ta\tOpen\tOpen\t0\t0\t0\nx\tb\tEdit\tEdit of 1\t0\t0\t0\nx\tb\tEdit\tEdit of 8\t0\t0\t0\n";
        let lines = parse(text);
        let order = calls(&lines.iter().collect::<Vec<&Line>>());
        assert_eq!(order, ["Edit of 1", "Edit of 8", "Open"]);
    }
}
