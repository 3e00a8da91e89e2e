//! Draws a table of spreads: for each call a group of rows, one for each code, with a point at the middle and a line from the least to the greatest.

use crate::axis::{is_power_of_ten, Axis};
use crate::shapes::{line, point, rectangle, small_on, text};
use crate::shapes::{CENTRED, ENDING_THERE, PLAIN, TITLE};
use crate::spread::{grouped, Spread};
use crate::spread_table::{Call, SpreadTable};

const WIDTH: f64 = 900.0;
const MARGIN: f64 = 20.0;
const GROUPS_TOP: f64 = 154.0;
const BELOW_GROUPS: f64 = 32.0;
const ROW_HEIGHT: f64 = 13.0;
const GROUP_GAP: f64 = 9.0;
const POINT_RADIUS: f64 = 3.6;
/// What a letter of a name takes, and what is kept free around a name.
const LETTER_WIDTH: f64 = 6.0;
const AROUND_NAME: f64 = 44.0;
/// How far a text's foot is below the text's middle.
const TEXT_FOOT: f64 = 4.0;

/// A reader who cannot tell red from green, or blue from yellow, can tell these apart.
const COLOURS: [&str; 4] = ["#009988", "#7a3b9a", "#d55e00", "#000000"];
const COLOUR_OF_NO_CODE: &str = "#666666";
/// In turn, so that the eye can follow a row.
const BACKGROUNDS: [&str; 2] = ["#f2f3f6", "#ffffff"];

/// What the chart says beside its points; `middle` is what the point stands for.
pub struct Words<'a> {
    pub title: &'a str,
    pub subtitle: &'a str,
    pub unit: &'a str,
    pub middle: &'a str,
}

pub fn svg(table: &SpreadTable, words: &Words) -> String {
    let spreads = table.calls.iter().flat_map(|call| &call.spreads);
    let spreads: Vec<Spread> = spreads.copied().flatten().collect();
    let axis = Axis::around(behind_names(&table.calls), &spreads);
    let (mut bands, mut groups) = (String::new(), String::new());
    let mut y = GROUPS_TOP;
    for (i, call) in table.calls.iter().enumerate() {
        let background = BACKGROUNDS[i % BACKGROUNDS.len()];
        let height = group_height(call);
        bands += &rectangle([MARGIN / 2.0, y], WIDTH - MARGIN, height, background);
        groups += &group(&axis, call, y, background);
        y += height;
    }
    let parts = [
        opening(words, &axis, y + BELOW_GROUPS),
        heading(words),
        legend(axis.left, &table.codes, words),
        bands,
        grid(&axis, words.unit, y),
        groups,
    ];
    parts.concat() + "</svg>\n"
}

/// The axis begins behind the longest name, so that none is cut off.
fn behind_names(calls: &[Call]) -> f64 {
    let longest = calls.iter().map(|call| call.name.len()).max();
    AROUND_NAME + LETTER_WIDTH * longest.unwrap_or_default() as f64
}

fn opening(words: &Words, axis: &Axis, height: f64) -> String {
    let (title, middle, unit) = (words.title, words.middle, words.unit);
    let (first, last) = (grouped(axis.first), grouped(axis.last));
    format!(
        r##"<svg xmlns="http://www.w3.org/2000/svg" width="{WIDTH}" height="{height}" viewBox="0 0 {WIDTH} {height}" role="img" aria-labelledby="title description" font-family="Helvetica, Arial, DejaVu Sans, sans-serif" font-size="12" fill="#222222">
<title id="title">{title}</title>
<desc id="description">For each call there is a group of rows, one for each code. A row has a point at {middle}, with the number beside it, and a line from the least to the greatest. The axis is logarithmic and goes from {first} to {last} {unit}. docs/SPEED.md has the same numbers as a table.</desc>
<rect width="100%" height="100%" fill="#ffffff"/>
"##
    )
}

fn heading(words: &Words) -> String {
    let source = "docs/SPEED.md has these numbers as a table, and says of which landing they are and how they were measured.";
    text([MARGIN, 30.0], TITLE, words.title)
        + &text([MARGIN, 51.0], PLAIN, words.subtitle)
        + &text([MARGIN, 68.0], PLAIN, source)
}

/// The colours of the codes, and below them what point and line mean.
fn legend(left: f64, codes: &[String], words: &Words) -> String {
    let (codes_at, meaning_at) = (93.0, 112.0);
    let mut drawn = row_name(left, codes_at, "code (n,k,t)");
    for (i, code) in codes.iter().enumerate() {
        drawn += &sample(left + 155.0 * i as f64, codes_at, colour(i), code);
    }
    let middle = words.middle;
    let meaning = format!("point and number: {middle}; line: from the least to the greatest");
    drawn + &sample(left, meaning_at, COLOUR_OF_NO_CODE, &meaning)
}

fn sample(x: f64, y: f64, colour: &str, meaning: &str) -> String {
    mark([x, x + 11.0, x + 26.0], y, colour) + &text([x + 34.0, y + TEXT_FOOT], PLAIN, meaning)
}

/// The powers of ten have the stronger lines, and their numbers above and below.
fn grid(axis: &Axis, unit: &str, bottom: f64) -> String {
    let numbers_at = [GROUPS_TOP - 10.0, bottom + 18.0];
    let mut drawn = numbers_at.map(|y| text([MARGIN, y], PLAIN, unit)).concat();
    for value in axis.grid() {
        let x = axis.at(value);
        if is_power_of_ten(value) {
            let number = grouped(value);
            drawn += &line([x, GROUPS_TOP], [x, bottom], "#b9bdc4", 1.0);
            drawn += &numbers_at.map(|y| text([x, y], CENTRED, &number)).concat();
        } else {
            drawn += &line([x, GROUPS_TOP], [x, bottom], "#e3e5e9", 1.0);
        }
    }
    drawn
}

fn group_height(call: &Call) -> f64 {
    ROW_HEIGHT * call.spreads.iter().flatten().count() as f64 + GROUP_GAP
}

fn group(axis: &Axis, call: &Call, top: f64, background: &str) -> String {
    let mut drawn = row_name(axis.left, top + group_height(call) / 2.0, &call.name);
    let mut y = top + (GROUP_GAP + ROW_HEIGHT) / 2.0;
    for (i, spread) in call.spreads.iter().enumerate() {
        if let Some(spread) = spread {
            let places = [spread.least, spread.middle, spread.greatest].map(|v| axis.at(v));
            drawn += &mark(places, y, colour(i));
            drawn += &number_behind(places, y, spread.middle, background);
            y += ROW_HEIGHT;
        }
    }
    drawn
}

/// The number stands where nothing else of the row is, and hides the grid lines behind it.
fn number_behind(places: [f64; 3], y: f64, number: u64, background: &str) -> String {
    let [_, middle, greatest] = places;
    let end = greatest.max(middle + POINT_RADIUS);
    let place = [end + 5.0, y + TEXT_FOOT];
    text(place, &small_on(background), &grouped(number))
}

/// A line from the least to the greatest, with a point at the middle.
fn mark([least, middle, greatest]: [f64; 3], y: f64, colour: &str) -> String {
    line([least, y], [greatest, y], colour, 1.6) + &point([middle, y], POINT_RADIUS, colour)
}

fn row_name(left: f64, y: f64, name: &str) -> String {
    text([left - 12.0, y + TEXT_FOOT], ENDING_THERE, name)
}

fn colour(code: usize) -> &'static str {
    COLOURS[code % COLOURS.len()]
}

#[cfg(test)]
mod tests {
    use super::{svg, Words, LETTER_WIDTH, MARGIN};
    use crate::spread_table::SpreadTable;

    const WORDS: Words = Words {
        title: "",
        subtitle: "",
        unit: "",
        middle: "",
    };

    /// Where the name of the only call ends.
    fn end_of_name(name: &str) -> f64 {
        let text = format!("| call | (7,4,1) |\n|---|--:|\n| {name} | 5 |\n");
        let drawn = svg(&SpreadTable::parse(&text).expect("a table"), &WORDS);
        let is_of_name = |line: &&str| line.ends_with(&format!(">{name}</text>"));
        let line = drawn.lines().find(is_of_name).expect("the name is drawn");
        let x = line.split('"').nth(1).expect("a text has a place");
        x.parse().expect("a place is a number")
    }

    #[test]
    fn no_name_is_cut_off() {
        for name in ["Open", "Read a frame of a book of 1,000"] {
            let width = LETTER_WIDTH * name.len() as f64;
            assert!(end_of_name(name) - width >= MARGIN, "{name}");
        }
    }
}
