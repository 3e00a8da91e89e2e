//! The blocks of a page: the text between two marks, to read and to replace.

use std::ops::Range;

/// The text of the block of that name, or none where the page has no such block.
pub fn block<'a>(page: &'a str, name: &str) -> Option<&'a str> {
    Some(&page[place_of(page, name)?])
}

/// The page with the block of that name replaced, or none where the page has no such block.
pub fn with_block(page: &str, name: &str, block: &str) -> Option<String> {
    let Range { start, end } = place_of(page, name)?;
    Some(format!("{}\n{block}\n{}", &page[..start], &page[end..]))
}

fn place_of(page: &str, name: &str) -> Option<Range<usize>> {
    let mark = format!("<!-- bench: {name} -->\n");
    let end_mark = format!("<!-- end of bench: {name} -->");
    let start = page.find(&mark)? + mark.len();
    let end = start + page[start..].find(&end_mark)?;
    Some(start..end)
}

#[cfg(test)]
mod tests {
    use super::{block, with_block};

    #[test]
    fn only_the_named_block_is_replaced() {
        let page = "a\n<!-- bench: x -->\nold\n<!-- end of bench: x -->\nb\n";
        let expected = "a\n<!-- bench: x -->\n\nnew\n\n<!-- end of bench: x -->\nb\n";
        assert_eq!(with_block(page, "x", "new\n").as_deref(), Some(expected));
        assert_eq!(
            with_block(expected, "x", "new\n").as_deref(),
            Some(expected)
        );
        assert_eq!(with_block(page, "y", "new\n"), None);
    }

    #[test]
    fn a_block_is_what_stands_between_its_marks() {
        let page = "<!-- bench: x -->\none\n<!-- end of bench: x -->\n<!-- bench: y -->\ntwo\n<!-- end of bench: y -->\n";
        assert_eq!(block(page, "y"), Some("two\n"));
        assert_eq!(block(page, "z"), None);
    }
}
