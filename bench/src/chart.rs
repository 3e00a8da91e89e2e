//! The chart of the page of speed: it is drawn from a table that stands there, the times where there are any and else the instructions.

use crate::drawing::{svg, Words};
use crate::page::block;
use crate::spread_table::SpreadTable;

pub fn of_page(page: &str) -> String {
    let drawn = times(page).or_else(|| instructions(page));
    drawn.expect("the page has a table of times or of instructions")
}

/// The processor stands in the first line of the block.
fn times(page: &str) -> Option<String> {
    let block = block(page, "times")?.trim_start();
    let table = SpreadTable::parse(block)?;
    let processor = block.lines().next()?;
    let words = Words {
        title: "Time of each call",
        subtitle: &format!("ns a call on a logarithmic axis. The processor: {processor}."),
        unit: "ns a call",
        middle: "the middle of 15 runs",
    };
    Some(svg(&table, &words))
}

fn instructions(page: &str) -> Option<String> {
    let table = SpreadTable::parse(block(page, "instructions")?)?;
    let words = Words {
        title: "Instructions of each call",
        subtitle: "x86-64 instructions a call on a logarithmic axis.",
        unit: "instructions a call",
        middle: "the middle of up to three made-up words",
    };
    Some(svg(&table, &words))
}

#[cfg(test)]
mod tests {
    use super::of_page;

    const INSTRUCTIONS: &str = "<!-- bench: instructions -->\n\n| call | (7,4,1) |\n|---|--:|\n| Open | 900 |\n\n<!-- end of bench: instructions -->\n";

    fn with_times(block: &str) -> String {
        format!("<!-- bench: times -->\n\n{block}\n<!-- end of bench: times -->\n{INSTRUCTIONS}")
    }

    #[test]
    fn the_chart_is_what_the_page_gives() {
        let page = include_str!("../../docs/SPEED.md");
        let is_drawn = include_str!("../../docs/speed.svg") == of_page(page);
        assert!(is_drawn, "`bash bench/run --chart` draws the chart again");
    }

    #[test]
    fn times_are_shown_with_their_processor() {
        let table = "| call | (7,4,1) |\n|---|--:|\n| Open | 33 (22 to 44) |\n";
        let drawn = of_page(&with_times(&format!("Fast & <small>\n\n{table}")));
        assert!(drawn.contains("Fast &amp; &lt;small&gt;") && drawn.contains(">33<"));
        assert!(!drawn.contains(">900<"));
    }

    #[test]
    fn instructions_are_shown_where_there_are_no_times() {
        for page in [with_times(""), INSTRUCTIONS.to_string()] {
            let drawn = of_page(&page);
            assert!(drawn.contains("Instructions of each call") && drawn.contains(">900<"));
        }
    }
}
