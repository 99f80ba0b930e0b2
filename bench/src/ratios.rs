//! The picture of ratios: for each call ours over the Rust's time, at each size.
use crate::measure::Size;
use crate::measured::{Against, Measured};
use crate::page::{names, Pair};
use crate::svg::{dot, line, logarithmic, picture as svg, words, BAR, GRID, NATIVE, OURS, TEXT};

const WIDTH: f64 = 860.0;
/// Where the axis begins and ends.
const LEFT: f64 = 190.0;
const RIGHT: f64 = 840.0;
/// Where the first call stands, and how far the next is from it.
const TOP: f64 = 70.0;
const STEP: f64 = 20.0;
/// The ratios at the ends of the axis, and those that have a line.
const LEAST: f64 = 0.08;
const MOST: f64 = 4.0;
const LINES: [f64; 6] = [0.1, 0.2, 0.5, 1.0, 2.0, 4.0];

pub fn picture(rows: &[Pair]) -> String {
    let beside_rust: Vec<&Pair> = rows
        .iter()
        .filter(|row| row.plain.against == Against::Rust)
        .collect();
    let calls: Vec<&str> = names(rows)
        .into_iter()
        .filter(|call| beside_rust.iter().any(|row| row.plain.call == *call))
        .collect();
    let bottom = TOP + STEP * calls.len() as f64;
    let mut parts = legend();
    parts.extend(LINES.map(|ratio| grid(ratio, bottom)).concat());
    for (at, call) in calls.iter().enumerate() {
        let y = TOP + STEP * (at as f64 + 0.5);
        parts.push(words([LEFT - 10.0, y + 4.0], "end", call));
        for row in beside_rust.iter().filter(|row| row.plain.call == *call) {
            parts.extend(marks(row, y));
        }
    }
    svg(WIDTH, bottom + 20.0, &parts)
}

fn x_of(ratio: f64) -> f64 {
    let place = logarithmic(ratio.clamp(LEAST, MOST), LEAST, MOST);
    LEFT + place * (RIGHT - LEFT)
}

fn grid(ratio: f64, bottom: f64) -> [String; 2] {
    let x = x_of(ratio);
    let colour = if ratio == 1.0 { TEXT } else { GRID };
    [
        line([x, TOP - 4.0], [x, bottom], colour, 1.0),
        words([x, TOP - 10.0], "middle", &format!("{ratio}")),
    ]
}

/// The larger the input, the larger the dot.
fn radius(row: &Measured) -> f64 {
    match row.size {
        Size::Small => 2.5,
        Size::Device | Size::One => 4.0,
        Size::Large => 5.5,
    }
}

/// A row's bar, its ratio to the Rust, and that to the Rust for this processor.
fn marks(row: &Pair, y: f64) -> Vec<String> {
    let mut marks = Vec::new();
    if let Some(bar) = row.plain.bar {
        let x = x_of(bar);
        marks.push(line([x, y - 7.0], [x, y + 7.0], BAR, 2.0));
    }
    if let Some(ratio) = row.native.ratio() {
        marks.push(dot([x_of(ratio), y], radius(&row.native), "none", NATIVE));
    }
    if let Some(ratio) = row.plain.ratio() {
        marks.push(dot([x_of(ratio), y], radius(&row.plain), OURS, "white"));
    }
    marks
}

fn legend() -> Vec<String> {
    vec![
        words(
            [LEFT, 18.0],
            "start",
            "Ours over the Rust's time: left of 1 ours is faster. The larger the dot, the larger the input.",
        ),
        dot([LEFT + 6.0, 34.0], 4.0, OURS, "white"),
        words([LEFT + 16.0, 38.0], "start", "the Rust"),
        dot([LEFT + 96.0, 34.0], 4.0, "none", NATIVE),
        words([LEFT + 106.0, 38.0], "start", "the Rust for this processor"),
        line([LEFT + 286.0, 28.0], [LEFT + 286.0, 41.0], BAR, 2.0),
        words([LEFT + 294.0, 38.0], "start", "bar"),
    ]
}
