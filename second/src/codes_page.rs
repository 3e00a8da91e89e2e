//! The page docs/CODES.md: every listed code with its n, k and t.

use crate::codes::{listed, Code};

pub fn text() -> String {
    let parts: Vec<(u64, Vec<Code>)> = (3..=10).map(|m| (m, codes_of(m))).collect();
    let count: usize = parts.iter().map(|(_, codes)| codes.len()).sum();
    let tables: String = parts.iter().map(|(m, codes)| table(*m, codes)).collect();
    format!("# The {count} codes\n\n{ABOUT}{tables}")
}

const ABOUT: &str = "\
A code is chosen by two numbers. m is 3 to 10 and sets the length of a word, n = 2^m - 1 places; \
t is the most wrong places that are mended in a word. k is how many of the n places carry the message; \
the other n - k are parity. For a given m a larger t leaves a smaller k.

A t that does not stand here for its m is refused 2, an m that does not stand here is refused 1. \
A program need not hold this page: the operation Sizes gives n and k of one code.

The second program works these numbers out by the rule in `docs/SCOPE.md`, section 3.4, and writes \
this page (`second codes`). The gate has it written again and compares.
";

/// From t = 2^(m-1) on 2t is above n, so that every residue is met and no code is left.
fn codes_of(m: u64) -> Vec<Code> {
    (1..1 << (m - 1)).filter_map(|t| listed(m, t)).collect()
}

/// A heading, and a row for each code of one m.
fn table(m: u64, codes: &[Code]) -> String {
    let noun = if codes.len() == 1 { "code" } else { "codes" };
    let (count, places) = (codes.len(), (1 << m) - 1);
    let rows: String = codes.iter().map(row).collect();
    format!(
        "\n## m = {m}: {count} {noun} of {places} places\n\n| n | k | t |\n|--:|--:|--:|\n{rows}"
    )
}

fn row(code: &Code) -> String {
    let Code { n, k, t, .. } = code;
    format!("| {n} | {k} | {t} |\n")
}

#[cfg(test)]
mod tests {
    use super::text;

    #[test]
    fn every_code_has_a_row_under_its_m() {
        let page = text();
        assert!(page.starts_with("# The 232 codes\n\n"));
        let is_row = |line: &&str| line.starts_with("| ") && !line.contains('n');
        assert_eq!(page.lines().filter(is_row).count(), 232);
        let shortest = "\n## m = 3: 1 code of 7 places\n\n| n | k | t |\n|--:|--:|--:|\n| 7 | 4 | 1 |\n\n## m = 4: 3 codes of 15 places\n\n| n | k | t |\n|--:|--:|--:|\n| 15 | 11 | 1 |\n| 15 | 7 | 2 |\n| 15 | 5 | 3 |\n\n## m = 5: 5 codes of 31 places\n";
        assert!(page.contains(shortest));
        assert!(page.contains("\n## m = 8: 33 codes of 255 places\n"));
        assert!(page.contains("\n| 255 | 99 | 23 |\n"));
        assert!(page.ends_with("\n| 1023 | 11 | 255 |\n"));
    }
}
