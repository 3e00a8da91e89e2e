//! The shapes of the chart, as SVG.

/// How a text looks, as attributes of its element.
pub const PLAIN: &str = "";
pub const TITLE: &str = r#" font-size="19" font-weight="bold""#;
pub const CENTRED: &str = r#" text-anchor="middle""#;
pub const ENDING_THERE: &str = r#" text-anchor="end""#;

/// A small text that hides what runs behind it, where the background has that colour.
pub fn small_on(background: &str) -> String {
    format!(r#" font-size="11" stroke="{background}" stroke-width="4" paint-order="stroke""#)
}

pub fn text([x, y]: [f64; 2], look: &str, words: &str) -> String {
    let words = escaped(words);
    format!("<text x=\"{x:.1}\" y=\"{y:.1}\"{look}>{words}</text>\n")
}

pub fn line([x1, y1]: [f64; 2], [x2, y2]: [f64; 2], colour: &str, width: f64) -> String {
    format!("<line x1=\"{x1:.1}\" y1=\"{y1:.1}\" x2=\"{x2:.1}\" y2=\"{y2:.1}\" stroke=\"{colour}\" stroke-width=\"{width}\"/>\n")
}

pub fn point([x, y]: [f64; 2], radius: f64, colour: &str) -> String {
    format!("<circle cx=\"{x:.1}\" cy=\"{y:.1}\" r=\"{radius}\" fill=\"{colour}\"/>\n")
}

pub fn rectangle([x, y]: [f64; 2], width: f64, height: f64, colour: &str) -> String {
    format!("<rect x=\"{x:.1}\" y=\"{y:.1}\" width=\"{width}\" height=\"{height}\" fill=\"{colour}\"/>\n")
}

fn escaped(text: &str) -> String {
    let without_and = text.replace('&', "&amp;");
    without_and.replace('<', "&lt;").replace('>', "&gt;")
}
