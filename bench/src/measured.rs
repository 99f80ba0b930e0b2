//! What was measured of a row, and the line of a file that keeps it.
use crate::floors::{floor_of, is_near};
use crate::goals::goal_of;
use crate::measure::{alone, measure, Beside, Row, Size};

pub struct Measured {
    pub call: String,
    pub input: String,
    pub size: Size,
    pub values: usize,
    pub against: Against,
    /// Nanoseconds of one call.
    pub ours: f64,
    pub theirs: Option<f64>,
    pub vector: Option<f64>,
    pub bar: Option<f64>,
    /// Nanoseconds of the additions that the call's order asks for, where it is little more.
    pub floor: Option<f64>,
}

/// What ours was measured against.
#[derive(Clone, Copy, PartialEq, Eq)]
pub enum Against {
    Rust,
    OneGo,
    Nothing,
}

/// The words for what ours was measured against, and for a size, in a file.
const AGAINST: [(Against, &str); 3] = [
    (Against::Rust, "the Rust"),
    (Against::OneGo, "one go"),
    (Against::Nothing, "nothing"),
];
const SIZES: [(Size, &str); 4] = [
    (Size::Small, "small"),
    (Size::Device, "device"),
    (Size::Large, "large"),
    (Size::One, "one"),
];

impl Measured {
    /// Measures a row of a call.
    pub fn of(call: &str, row: Row) -> Measured {
        let (input, size, values, bar) = (row.input.clone(), row.size, row.values, row.bar);
        let against = match row.beside {
            Beside::Rust(_) => Against::Rust,
            Beside::OneGo(_) => Against::OneGo,
            Beside::Nothing => Against::Nothing,
        };
        let times = measure(row);
        let floor = floor_of(call, values).map(|mut additions| alone(&mut additions));
        Measured {
            call: call.into(),
            input,
            size,
            values,
            against,
            ours: times.ours,
            theirs: times.theirs,
            vector: times.vector,
            bar,
            floor,
        }
    }

    /// Ours over the other's time.
    pub fn ratio(&self) -> Option<f64> {
        self.theirs.map(|theirs| self.ours / theirs)
    }

    /// Whether the bar is held, where there is one: by the ratio, or because the call is at its floor.
    pub fn held(&self) -> Option<bool> {
        Some(self.ratio()? <= self.bar? || self.at_floor())
    }

    /// Whether the ratio is above the bar: if the bar is held all the same, the call is at its floor.
    pub fn above_bar(&self) -> bool {
        matches!((self.ratio(), self.bar), (Some(ratio), Some(bar)) if ratio > bar)
    }

    /// Whether the call takes hardly more than its order does by itself.
    fn at_floor(&self) -> bool {
        self.floor.is_some_and(|floor| is_near(self.ours, floor))
    }

    /// The goal, where there is a bar.
    pub fn goal(&self) -> Option<f64> {
        self.bar.and_then(|_| goal_of(&self.call))
    }

    /// Whether the goal is reached, where there is one.
    pub fn reached(&self) -> Option<bool> {
        Some(self.ratio()? <= self.goal()?)
    }

    pub fn size_word(&self) -> &'static str {
        word_of(&SIZES, self.size)
    }

    pub fn line(&self) -> String {
        let number = |number: Option<f64>| number.map_or("-".into(), |number| number.to_string());
        [
            self.call.clone(),
            self.input.clone(),
            self.size_word().into(),
            self.values.to_string(),
            word_of(&AGAINST, self.against).into(),
            self.ours.to_string(),
            number(self.theirs),
            number(self.vector),
            number(self.bar),
            number(self.floor),
        ]
        .join("\t")
    }

    /// What a line keeps, where it is one.
    pub fn of_line(line: &str) -> Option<Measured> {
        let words: Vec<&str> = line.split('\t').collect();
        let [call, input, size, values, against, ours, theirs, vector, bar, floor] = words[..]
        else {
            return None;
        };
        let number = |word: &str| word.parse().ok();
        Some(Measured {
            call: call.into(),
            input: input.into(),
            size: of_word(&SIZES, size)?,
            values: values.parse().ok()?,
            against: of_word(&AGAINST, against)?,
            ours: ours.parse().ok()?,
            theirs: number(theirs),
            vector: number(vector),
            bar: number(bar),
            floor: number(floor),
        })
    }
}

fn word_of<T: Copy + PartialEq>(words: &[(T, &'static str)], thing: T) -> &'static str {
    let found = words.iter().find(|(other, _)| *other == thing);
    found.expect("each has a word").1
}

fn of_word<T: Copy>(words: &[(T, &str)], word: &str) -> Option<T> {
    let found = words.iter().find(|(_, other)| *other == word);
    found.map(|(thing, _)| *thing)
}
