//! The tables of the pages: spreads of a measure, shares of functions, and the stack.

use crate::measured::{calls, in_order, Line};
use crate::names::{Names, CALLER};
use crate::spread::grouped;
use std::collections::BTreeMap;

/// Rows are calls and columns are codes; a cell has the spread.
pub fn spread(lines: &[&Line]) -> String {
    let find = |row: &str, code: &str| {
        let mut of_cell = lines.iter().filter(|l| l.call == row && l.code == code);
        of_cell.next().map(|line| line.spread.to_cell())
    };
    by_code(lines, &calls(lines), find)
}

/// Rows are operations; a cell has the greatest over all words of all its calls.
pub fn greatest(lines: &[&Line]) -> String {
    let find = |row: &str, code: &str| {
        let of_cell = lines
            .iter()
            .filter(|l| l.operation == row && l.code == code);
        of_cell.map(|line| line.spread.greatest).max().map(grouped)
    };
    by_code(lines, &in_order(lines, |line| &line.operation), find)
}

fn by_code(lines: &[&Line], rows: &[&str], find: impl Fn(&str, &str) -> Option<String>) -> String {
    let codes = in_order(lines, |line| &line.code);
    let cells = |row: &str| {
        let filled = codes.iter().map(|code| find(row, code).unwrap_or_default());
        filled.collect::<Vec<String>>()
    };
    let body = rows.iter().map(|row| (row.to_string(), cells(row)));
    let heads: Vec<String> = codes.iter().map(|code| code.to_string()).collect();
    table("call", &heads, body)
}

/// Rows are functions and columns are cases; a cell is the share of the case's instructions that stand in the function.
pub fn shares(cases: &[&Line], names: &Names) -> String {
    let counts: Vec<BTreeMap<&str, u64>> = cases.iter().map(|c| by_function(c, names)).collect();
    let mut in_all: BTreeMap<&str, u64> = BTreeMap::new();
    for (name, count) in counts.iter().flatten() {
        *in_all.entry(name).or_default() += count;
    }
    let mut functions: Vec<&str> = in_all.keys().copied().collect();
    functions.sort_by_key(|name| std::cmp::Reverse(in_all[name]));
    let share = |count: &BTreeMap<&str, u64>, name: &str| match count.get(name) {
        Some(part) => percent(*part, count.values().sum()),
        None => String::new(),
    };
    let body = functions.iter().map(|name| {
        let cells = counts.iter().map(|count| share(count, name)).collect();
        (labelled(name), cells)
    });
    let head = |case: &&Line| format!("{} {}", case.code, case.call);
    table(
        "function",
        &cases.iter().map(head).collect::<Vec<String>>(),
        body,
    )
}

/// Names of functions are marked as code.
fn labelled(name: &str) -> String {
    match name {
        CALLER => name.to_string(),
        _ => format!("`{name}`"),
    }
}

fn by_function<'a>(case: &Line, names: &'a Names) -> BTreeMap<&'a str, u64> {
    let mut counts = BTreeMap::new();
    for (address, count) in &case.stops {
        *counts.entry(names.function_at(*address)).or_default() += count;
    }
    counts
}

fn percent(part: u64, whole: u64) -> String {
    format!("{:.1} %", 100.0 * part as f64 / whole as f64)
}

fn table(
    corner: &str,
    heads: &[String],
    body: impl Iterator<Item = (String, Vec<String>)>,
) -> String {
    let mut text = format!("| {corner} | {} |\n", heads.join(" | "));
    text += &format!("|---{}|\n", "|--:".repeat(heads.len()));
    for (name, cells) in body {
        text += &format!("| {name} | {} |\n", cells.join(" | "));
    }
    text
}

#[cfg(test)]
mod tests {
    use super::{greatest, shares, spread};
    use crate::measured::{parse, Line};
    use crate::names::Names;

    const TEXT: &str = "x\t(15,5,3)\tDecode\tDecode, 0 wrong\t5\t5\t5\nat\t10\t3\nat\t20\t1\nx\t(15,5,3)\tDecode\tDecode, t wrong\t1000\t2000\t3000\nx\t(7,4,1)\tOpen\tOpen\t1\t2\t3\n";

    fn tables_of(make: impl Fn(&[&Line]) -> String) -> Vec<String> {
        let lines = parse(TEXT);
        let text = make(&lines.iter().collect::<Vec<&Line>>());
        text.lines().map(str::to_string).collect()
    }

    #[test]
    fn a_spread_has_a_row_for_each_call_and_a_column_for_each_code() {
        let rows = tables_of(spread);
        assert_eq!(rows[0], "| call | (15,5,3) | (7,4,1) |");
        assert_eq!(rows[2], "| Decode, 0 wrong | 5 |  |");
        assert_eq!(rows[3], "| Decode, t wrong | 2,000 (1,000 to 3,000) |  |");
        assert_eq!(rows[4], "| Open |  | 2 (1 to 3) |");
    }

    #[test]
    fn the_greatest_is_taken_over_all_calls_of_an_operation() {
        let rows = tables_of(greatest);
        assert_eq!(rows[2], "| Decode | 3,000 |  |");
        assert_eq!(rows.len(), 4);
    }

    #[test]
    fn shares_are_of_the_case_and_the_largest_comes_first() {
        let names = Names::parse("0000000000000020 t a::b\n0000000000000010 t c::d\n");
        let rows = tables_of(|lines| shares(&lines[..1], &names));
        assert_eq!(rows[2], "| `c::d` | 75.0 % |");
        assert_eq!(rows[3], "| `a::b` | 25.0 % |");
    }
}
