//! A table of spreads, read back from the page where it stands: rows are calls and columns are codes.

use crate::spread::Spread;

#[derive(Debug, PartialEq)]
pub struct SpreadTable {
    pub codes: Vec<String>,
    pub calls: Vec<Call>,
}

/// One spread for each code, or none where the call was not measured with the code.
#[derive(Debug, PartialEq)]
pub struct Call {
    pub name: String,
    pub spreads: Vec<Option<Spread>>,
}

impl SpreadTable {
    /// None where the text has no table.
    pub fn parse(text: &str) -> Option<SpreadTable> {
        let mut rows = text.lines().filter_map(cells_of);
        let heads = rows.next()?;
        let _alignments = rows.next()?;
        let calls: Vec<Call> = rows.map(|cells| call_of(&cells)).collect();
        let is_full = |call: &Call| call.spreads.len() == heads.len() - 1;
        assert!(calls.iter().all(is_full), "each row is as long as the head");
        Some(SpreadTable {
            codes: heads[1..].iter().map(|code| code.to_string()).collect(),
            calls,
        })
    }
}

fn cells_of(row: &str) -> Option<Vec<&str>> {
    let inside = row.strip_prefix('|')?.strip_suffix('|')?;
    Some(inside.split('|').map(str::trim).collect())
}

fn call_of(cells: &[&str]) -> Call {
    let spread = |cell: &&str| match *cell {
        "" => None,
        text => Some(Spread::from_cell(text).unwrap_or_else(|| panic!("not a spread: {text}"))),
    };
    Call {
        name: cells[0].to_string(),
        spreads: cells[1..].iter().map(spread).collect(),
    }
}

#[cfg(test)]
mod tests {
    use super::SpreadTable;

    #[test]
    fn rows_are_calls_and_columns_are_codes() {
        let text = "Some processor\n\n| call | (15,5,3) | (7,4,1) |\n|---|--:|--:|\n| Edit of 1 | 2,000 (1,000 to 3,000) |  |\n| Open |  | 5 |\n";
        let table = SpreadTable::parse(text).expect("a table");
        assert_eq!(table.codes, ["(15,5,3)", "(7,4,1)"]);
        let names: Vec<&str> = table.calls.iter().map(|call| call.name.as_str()).collect();
        assert_eq!(names, ["Edit of 1", "Open"]);
        let middles = |row: usize| table.calls[row].spreads.iter().map(|s| s.map(|s| s.middle));
        assert!(middles(0).eq([Some(2000), None]));
        assert!(middles(1).eq([None, Some(5)]));
    }

    #[test]
    fn a_text_without_a_table_has_none() {
        assert_eq!(SpreadTable::parse("\nNo time was taken.\n"), None);
    }
}
