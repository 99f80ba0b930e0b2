//! Parts of a picture, as SVG.

/// The colours of what is drawn.
pub const OURS: &str = "#1f5fa8";
pub const RUST: &str = "#8a8a8a";
pub const NATIVE: &str = "#c26a1c";
pub const BAR: &str = "#b3202a";
pub const GRID: &str = "#dddddd";
pub const TEXT: &str = "#222222";

/// A picture of a width and a height, on white.
pub fn picture(width: f64, height: f64, parts: &[String]) -> String {
    format!(
        "<svg xmlns=\"http://www.w3.org/2000/svg\" viewBox=\"0 0 {width} {height}\" width=\"{width}\" height=\"{height}\" font-family=\"sans-serif\" font-size=\"11\">\n\
         <rect width=\"{width}\" height=\"{height}\" fill=\"white\"/>\n{}\n</svg>\n",
        parts.join("\n")
    )
}

pub fn line([x1, y1]: [f64; 2], [x2, y2]: [f64; 2], colour: &str, width: f64) -> String {
    format!("<line x1=\"{x1:.1}\" y1=\"{y1:.1}\" x2=\"{x2:.1}\" y2=\"{y2:.1}\" stroke=\"{colour}\" stroke-width=\"{width}\"/>")
}

pub fn path(points: &[[f64; 2]], colour: &str, dashes: &str) -> String {
    let points: Vec<String> = points
        .iter()
        .map(|[x, y]| format!("{x:.1},{y:.1}"))
        .collect();
    format!(
        "<polyline points=\"{}\" fill=\"none\" stroke=\"{colour}\" stroke-width=\"1.6\" stroke-dasharray=\"{dashes}\"/>",
        points.join(" ")
    )
}

pub fn dot([x, y]: [f64; 2], radius: f64, fill: &str, edge: &str) -> String {
    format!("<circle cx=\"{x:.1}\" cy=\"{y:.1}\" r=\"{radius}\" fill=\"{fill}\" stroke=\"{edge}\" stroke-width=\"1.3\"/>")
}

/// Words whose `start`, `middle` or `end` is at a place.
pub fn words([x, y]: [f64; 2], anchor: &str, text: &str) -> String {
    format!(
        "<text x=\"{x:.1}\" y=\"{y:.1}\" text-anchor=\"{anchor}\" fill=\"{TEXT}\">{text}</text>"
    )
}

/// Where a number stands between two others, by its logarithm, from 0 to 1.
pub fn logarithmic(number: f64, least: f64, most: f64) -> f64 {
    (number / least).ln() / (most / least).ln()
}
