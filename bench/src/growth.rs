//! The picture of growth: for each call its time against the number of values, both by logarithm.
use crate::measured::Against;
use crate::page::{names, Pair};
use crate::svg::{dot, line, logarithmic, path, picture as svg, words, GRID, NATIVE, OURS, RUST};

/// A panel for each call, so many beside one another.
const COLUMNS: usize = 4;
const PANEL: [f64; 2] = [230.0, 150.0];
/// What a panel keeps free around its curves: left, top, right and below.
const FREE: [f64; 4] = [62.0, 26.0, 12.0, 24.0];
/// The height of the legend.
const TOP: f64 = 34.0;

/// The times of a side at a number of values.
type Side = fn(&Pair) -> Option<f64>;

/// The sides, with the colour and the dashes of their curves.
const SIDES: [(Side, &str, &str); 3] = [
    (|row| row.plain.theirs, RUST, ""),
    (|row| row.native.theirs, NATIVE, "4 3"),
    (|row| Some(row.plain.ours), OURS, ""),
];

pub fn picture(rows: &[Pair]) -> String {
    let panels: Vec<Vec<&Pair>> = names(rows)
        .into_iter()
        .map(|call| rows_of(rows, call))
        .filter(|rows| rows.len() > 1)
        .collect();
    let mut parts = legend();
    for (at, panel) in panels.iter().enumerate() {
        let (column, row) = (at % COLUMNS, at / COLUMNS);
        let corner = [column as f64 * PANEL[0], TOP + row as f64 * PANEL[1]];
        parts.extend(Panel::of(panel, corner).parts(panel));
    }
    let height = TOP + PANEL[1] * panels.len().div_ceil(COLUMNS) as f64;
    svg(PANEL[0] * COLUMNS as f64, height, &parts)
}

/// The rows of a call that has not our own layer beside it, one for each number of values: the first
/// of each.
fn rows_of<'a>(rows: &'a [Pair], call: &str) -> Vec<&'a Pair> {
    let mut chosen: Vec<&Pair> = Vec::new();
    let of_call = |row: &&Pair| row.plain.call == call && row.plain.against != Against::OneGo;
    for row in rows.iter().filter(of_call) {
        if chosen
            .iter()
            .all(|other| other.plain.values != row.plain.values)
        {
            chosen.push(row);
        }
    }
    chosen.sort_by_key(|row| row.plain.values);
    chosen
}

/// Where a panel's curves are drawn, and the numbers at its edges.
struct Panel {
    corner: [f64; 2],
    values: [f64; 2],
    times: [f64; 2],
}

impl Panel {
    fn of(rows: &[&Pair], corner: [f64; 2]) -> Panel {
        let values = rows.iter().map(|row| row.plain.values as f64);
        let times = rows
            .iter()
            .flat_map(|row| SIDES.iter().filter_map(|(side, ..)| side(row)));
        Panel {
            corner,
            values: ends(values),
            times: ends(times),
        }
    }

    fn place(&self, values: f64, time: f64) -> [f64; 2] {
        let [left, top, right, below] = FREE;
        let [x, y] = self.corner;
        let across = logarithmic(values, self.values[0], self.values[1]);
        let up = logarithmic(time, self.times[0], self.times[1]);
        [
            x + left + across * (PANEL[0] - left - right),
            y + PANEL[1] - below - up * (PANEL[1] - top - below),
        ]
    }

    fn parts(&self, rows: &[&Pair]) -> Vec<String> {
        let [x, y] = self.corner;
        let middle = x + (FREE[0] + PANEL[0] - FREE[2]) / 2.0;
        let mut parts = vec![words([middle, y + 16.0], "middle", &rows[0].plain.call)];
        parts.extend(self.frame());
        for (side, colour, dashes) in SIDES {
            let points: Vec<[f64; 2]> = rows
                .iter()
                .filter_map(|row| Some(self.place(row.plain.values as f64, side(row)?)))
                .collect();
            parts.push(path(&points, colour, dashes));
            parts.extend(points.iter().map(|&at| dot(at, 2.0, colour, colour)));
        }
        parts
    }

    /// The two axes, with the numbers at their ends.
    fn frame(&self) -> Vec<String> {
        let ([few, many], [short, long]) = (self.values, self.times);
        let origin = self.place(few, short);
        let (right, top) = (self.place(many, short), self.place(few, long));
        vec![
            line(origin, right, GRID, 1.0),
            line(origin, top, GRID, 1.0),
            words([origin[0], origin[1] + 14.0], "start", &count(few)),
            words([right[0], right[1] + 14.0], "end", &count(many)),
            words([origin[0] - 4.0, origin[1]], "end", &time(short)),
            words([top[0] - 4.0, top[1] + 4.0], "end", &time(long)),
        ]
    }
}

/// The least and the most.
fn ends(numbers: impl Iterator<Item = f64>) -> [f64; 2] {
    numbers.fold([f64::INFINITY, 0.0], |[least, most], number| {
        [least.min(number), most.max(number)]
    })
}

fn count(values: f64) -> String {
    if values >= 1e6 {
        format!("{:.0}M", values / 1e6)
    } else if values >= 1e4 {
        format!("{:.0}k", values / 1e3)
    } else {
        format!("{values}")
    }
}

fn time(nanoseconds: f64) -> String {
    if nanoseconds >= 1e6 {
        format!("{:.1} ms", nanoseconds / 1e6)
    } else if nanoseconds >= 1e3 {
        format!("{:.1} us", nanoseconds / 1e3)
    } else {
        format!("{nanoseconds:.0} ns")
    }
}

fn legend() -> Vec<String> {
    vec![
        words([12.0, 20.0], "start", "Time of a call against its values:"),
        line([200.0, 16.0], [224.0, 16.0], OURS, 2.0),
        words([230.0, 20.0], "start", "ours"),
        line([280.0, 16.0], [304.0, 16.0], RUST, 2.0),
        words([310.0, 20.0], "start", "the Rust"),
        path(&[[390.0, 16.0], [414.0, 16.0]], NATIVE, "4 3"),
        words([420.0, 20.0], "start", "the Rust for this processor"),
    ]
}
