//! Prints what the driver measured as tables; with --write, puts them into the pages and draws the chart of what then stands there; with --chart, only draws it.

mod axis;
mod chart;
mod drawing;
mod measured;
mod names;
mod page;
mod shapes;
mod spread;
mod spread_table;
mod tables;

use measured::Line;
use names::Names;
use std::fs;

const SPEED_PAGE: &str = "docs/SPEED.md";
const STACK_PAGE: &str = "docs/INTEGRATING.md";
const CHART: &str = "docs/speed.svg";

/// The calls whose functions are told apart: code, call.
const SHARED_OUT: [(&str, &str); 8] = [
    ("(255,99,23)", "Encode"),
    ("(255,99,23)", "Decode, 0 wrong"),
    ("(255,99,23)", "Decode, t wrong"),
    ("(1023,513,57)", "Encode"),
    ("(1023,513,57)", "Decode, 0 wrong"),
    ("(1023,513,57)", "Decode, t wrong"),
    ("(255,99,23)", "Read a frame, 0 wrong"),
    ("(255,99,23)", "Read a frame, t wrong"),
];

fn main() {
    let words: Vec<String> = std::env::args().skip(1).collect();
    let words: Vec<&str> = words.iter().map(String::as_str).collect();
    match words[..] {
        ["--chart"] => draw_chart(),
        [measured, names] => report(measured, names, false),
        [measured, names, "--write"] => {
            report(measured, names, true);
            draw_chart();
        }
        _ => {
            eprintln!("usage: bench MEASURED NAMES [--write], or bench --chart");
            std::process::exit(2);
        }
    }
}

fn report(measured: &str, names: &str, writes: bool) {
    let lines = measured::parse(&read(measured));
    let names = Names::parse(&read(names));
    for (page, name, block) in blocks(&lines, &names) {
        println!("{name}\n\n{block}");
        if writes {
            let changed = page::with_block(&read(page), name, &block);
            write(page, &changed.expect("the page has the block"));
        }
    }
}

fn draw_chart() {
    write(CHART, &chart::of_page(&read(SPEED_PAGE)));
}

/// The page, the name and the text of each block that could be measured.
fn blocks(lines: &[Line], names: &Names) -> Vec<(&'static str, &'static str, String)> {
    let mut blocks = Vec::new();
    let times = of(lines, "ns");
    if !times.is_empty() {
        let text = format!("{}\n\n{}", processor(), tables::spread(&times));
        blocks.push((SPEED_PAGE, "times", text));
    }
    let instructions = of(lines, "instructions");
    blocks.push((SPEED_PAGE, "instructions", tables::spread(&instructions)));
    let is_of = |line: &Line, (code, call): &(&str, &str)| line.code == *code && line.call == *call;
    let find = |case| instructions.iter().copied().find(|line| is_of(line, case));
    let cases: Vec<&Line> = SHARED_OUT.iter().filter_map(find).collect();
    blocks.push((SPEED_PAGE, "shares", tables::shares(&cases, names)));
    blocks.push((STACK_PAGE, "stack", tables::greatest(&of(lines, "stack"))));
    blocks
}

fn of<'a>(lines: &'a [Line], measure: &str) -> Vec<&'a Line> {
    lines
        .iter()
        .filter(|line| line.measure == measure)
        .collect()
}

/// The processor's kind and how many cores there are.
fn processor() -> String {
    let about = fs::read_to_string("/proc/cpuinfo").unwrap_or_default();
    let model = about
        .lines()
        .find_map(|line| line.strip_prefix("model name")?.split(": ").nth(1));
    let cores = std::thread::available_parallelism().map_or(1, |count| count.get());
    format!(
        "{}, {cores} cores",
        model.unwrap_or("a processor of unknown kind")
    )
}

fn read(path: &str) -> String {
    fs::read_to_string(path).unwrap_or_else(|error| panic!("{path}: {error}"))
}

fn write(path: &str, text: &str) {
    fs::write(path, text).unwrap_or_else(|error| panic!("{path}: {error}"));
}
