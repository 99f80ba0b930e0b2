//! The page of what was measured on one processor, beside the Rust and beside the Rust for it.
use crate::measure::{Size, ROUNDS};
use crate::measured::{Against, Measured};
use crate::table::{nanoseconds, two_places, WORDS};
use std::fmt;

/// A row beside the Rust as anyone builds it, and beside the Rust built for this very processor.
pub struct Pair {
    pub plain: Measured,
    pub native: Measured,
}

/// The rows of two files, which are of the same calls and inputs.
pub fn pairs(plain: Vec<Measured>, native: Vec<Measured>) -> Result<Vec<Pair>, String> {
    let same = plain.len() == native.len()
        && plain
            .iter()
            .zip(&native)
            .all(|(one, other)| (&one.call, &one.input) == (&other.call, &other.input));
    if !same {
        return Err("the two files are not of the same rows".into());
    }
    let pairs = plain.into_iter().zip(native);
    Ok(pairs
        .map(|(plain, native)| Pair { plain, native })
        .collect())
}

/// How many bars there are, and how many of them are held.
pub struct Bars {
    pub all: usize,
    pub held: usize,
    missed: Vec<String>,
}

impl Bars {
    pub fn of(rows: &[Pair]) -> Bars {
        let judged = |held: bool| {
            let rows = rows.iter().map(|row| &row.plain);
            rows.filter(move |row| row.held() == Some(held))
        };
        let missed: Vec<String> = judged(false)
            .map(|row| {
                let (ratio, bar) = (two_places(row.ratio()), two_places(row.bar));
                format!("`{}` on {} has {ratio}, over {bar}", row.call, row.input)
            })
            .collect();
        let held = judged(true).count();
        Bars {
            all: held + missed.len(),
            held,
            missed,
        }
    }
}

impl fmt::Display for Bars {
    fn fmt(&self, to: &mut fmt::Formatter) -> fmt::Result {
        write!(to, "{} of {} bars are held", self.held, self.all)
    }
}

/// The page, of a processor, the day and the compiler.
pub fn text(rows: &[Pair], [processor, day, compiler]: [&str; 3]) -> String {
    let bars = Bars::of(rows);
    let missed = match &bars.missed[..] {
        [] => String::new(),
        missed => format!(" Missed: {}.", missed.join("; ")),
    };
    let (by_steps, calls): (Vec<_>, Vec<_>) =
        (rows.iter()).partition(|row| row.plain.against == Against::OneGo);
    [
        format!("# Speed on {processor}\n"),
        format!("Measured on {day} with {compiler}. {bars}.{missed}\n"),
        format!("{WORDS}\nThe median of {ROUNDS} rounds, in which both sides take turns, in one process; the Rust for this processor is measured so in a second one.\n"),
        "`bench/run` makes this page and its pictures.\n".into(),
        "![Ours over the Rust's time, call by call](ratios.svg)\n".into(),
        "## Beside the Rust\n".into(),
        table(&calls),
        "\n## A layer by steps, beside our layer in one go\n".into(),
        table_of_steps(&by_steps),
        "\n## How the time grows\n".into(),
        growth(rows),
        "![Time against size, call by call](growth.svg)\n".into(),
    ]
    .join("\n")
}

fn table(rows: &[&Pair]) -> String {
    let head = "\
| call | input | size | ours, ns | ns a value | the Rust, ns | its vector, ns | floor, ns | ours / Rust | bar | goal | the Rust for this processor, ns | ours / that |
|---|---|---|---:|---:|---:|---:|---:|---:|---:|---:|---:|---:|";
    let rows = rows.iter().map(|Pair { plain, native }| {
        let time = |time: Option<f64>| time.map_or(String::new(), nanoseconds);
        format!(
            "| `{}` | {} | {} | {} | {:.3} | {} | {} | {} | {} | {} | {} | {} | {} |",
            plain.call,
            plain.input,
            plain.size_word(),
            nanoseconds(plain.ours),
            plain.ours / plain.values as f64,
            time(plain.theirs),
            time(plain.vector),
            time(plain.floor),
            two_places(plain.ratio()),
            bar(plain),
            goal(plain),
            time(native.theirs),
            two_places(native.ratio()),
        )
    });
    lines(head, rows)
}

fn table_of_steps(rows: &[&Pair]) -> String {
    let head = "\
| input | size | by steps, ns | in one go, ns | ratio | bar |
|---|---|---:|---:|---:|---:|";
    let rows = rows.iter().map(|Pair { plain, .. }| {
        format!(
            "| {} | {} | {} | {} | {} | {} |",
            plain.input,
            plain.size_word(),
            nanoseconds(plain.ours),
            plain.theirs.map_or(String::new(), nanoseconds),
            two_places(plain.ratio()),
            bar(plain),
        )
    });
    lines(head, rows)
}

/// A bar, and words where the ratio is above it: missed, or the call is at its floor.
fn bar(row: &Measured) -> String {
    let word = match row.held() {
        Some(false) => " missed",
        Some(true) if row.above_bar() => " at its floor",
        _ => "",
    };
    two_places(row.bar) + word
}

/// A goal, and words where it is not reached.
fn goal(row: &Measured) -> String {
    let missed = if row.reached() == Some(false) {
        " not reached"
    } else {
        ""
    };
    two_places(row.goal()) + missed
}

fn lines(head: &str, rows: impl Iterator<Item = String>) -> String {
    let rows: Vec<String> = rows.collect();
    format!("{head}\n{}\n", rows.join("\n"))
}

/// The time of a value at a call's largest input over that at the logger's size, from the least to
/// the most over all calls that have both.
fn growth(rows: &[Pair]) -> String {
    let mut ratios: Vec<(f64, &str)> = Vec::new();
    for call in names(rows) {
        let of = |size| {
            let rows = rows.iter().map(|row| &row.plain);
            let of_size = rows.filter(|row| row.call == call && row.size == size);
            of_size.max_by_key(|row| row.values)
        };
        if let (Some(device), Some(large)) = (of(Size::Device), of(Size::Large)) {
            let value = |row: &Measured| row.ours / row.values as f64;
            ratios.push((value(large) / value(device), call));
        }
    }
    ratios.sort_by(|one, other| one.0.total_cmp(&other.0));
    let ([least, ..], [.., most]) = (&ratios[..], &ratios[..]) else {
        return String::new();
    };
    format!(
        "At its largest input a call takes {:.2} (`{}`) to {:.2} (`{}`) of the time a value that it takes at the size of the logger: 1.00 is time in proportion to the number of values. On small inputs the call itself and its checks are seen.\n",
        least.0, least.1, most.0, most.1
    )
}

/// The calls that the rows are of, in their order.
pub fn names(rows: &[Pair]) -> Vec<&str> {
    let mut names: Vec<&str> = rows.iter().map(|row| row.plain.call.as_str()).collect();
    names.dedup();
    names
}
