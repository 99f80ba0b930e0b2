//! Measuring: the two sides take turns, and the median of many rounds stands for each.
use std::hint::black_box;
use std::time::{Duration, Instant};

/// How many rounds are measured.
pub const ROUNDS: usize = 301;

/// The least that one measured time lasts, so that reading the clock does not count.
const LEAST: Duration = Duration::from_micros(50);

/// The calls of one side, on one input.
pub type Turn = Box<dyn FnMut()>;

/// How large an input is among those of its call.
#[derive(Clone, Copy, PartialEq, Eq)]
pub enum Size {
    /// One block, or less.
    Small,
    /// What the logger works with: rows of 2,048 readings, layers of 16 such rows.
    Device,
    /// More than that, up to what a call takes.
    Large,
    /// One number, which has no size.
    One,
}

/// What stands beside ours.
pub enum Beside {
    /// The Rust, or what stands for it where it has no such call.
    Rust(Turn),
    /// Our own layer in one go.
    OneGo(Turn),
    /// Nothing: the Rust has no such call.
    Nothing,
}

/// A call on one kind of input, and what it is held against.
pub struct Row {
    /// What the input is.
    pub input: String,
    pub size: Size,
    /// How many values one call goes through.
    pub values: usize,
    /// How many calls a turn makes.
    pub calls: usize,
    /// How much of the time of what stands beside it ours may take at most.
    pub bar: Option<f64>,
    /// Where the Rust puts its values into a new vector, how many.
    pub vector: Option<usize>,
    pub ours: Turn,
    pub beside: Beside,
}

/// Nanoseconds of one call, of what stands beside it, and of the Rust's vector alone.
pub struct Times {
    pub ours: f64,
    pub theirs: Option<f64>,
    pub vector: Option<f64>,
}

pub fn measure(row: Row) -> Times {
    let Row {
        calls,
        mut ours,
        beside,
        ..
    } = row;
    let vector = row.vector.map(measure_vector);
    let (ours, theirs) = match beside {
        Beside::Rust(mut theirs) | Beside::OneGo(mut theirs) => {
            let (ours, theirs) = in_turns(&mut ours, &mut theirs);
            (ours, Some(theirs))
        }
        Beside::Nothing => (alone(&mut ours), None),
    };
    Times {
        ours: ours / calls as f64,
        theirs: theirs.map(|time| time / calls as f64),
        vector,
    }
}

/// Nanoseconds of a turn of each side. The side that begins a round changes from round to round.
fn in_turns(ours: &mut Turn, theirs: &mut Turn) -> (f64, f64) {
    let turns = turns_for(ours).max(turns_for(theirs));
    let mut times = [Vec::with_capacity(ROUNDS), Vec::with_capacity(ROUNDS)];
    for round in 0..ROUNDS {
        if round % 2 == 0 {
            times[0].push(time(ours, turns));
            times[1].push(time(theirs, turns));
        } else {
            times[1].push(time(theirs, turns));
            times[0].push(time(ours, turns));
        }
    }
    let [ours, theirs] = times.map(|times| median(times) / f64::from(turns));
    (ours, theirs)
}

/// Nanoseconds of a turn of one side.
pub fn alone(turn: &mut dyn FnMut()) -> f64 {
    let turns = turns_for(turn);
    let times = (0..ROUNDS).map(|_| time(turn, turns)).collect();
    median(times) / f64::from(turns)
}

/// Nanoseconds that it takes to make a vector of so many zeros and to drop it.
fn measure_vector(len: usize) -> f64 {
    alone(&mut || drop(black_box(vec![0f32; black_box(len)])))
}

/// How many turns last long enough to be measured; to find it also warms the side up.
fn turns_for(turn: &mut dyn FnMut()) -> u32 {
    let mut turns = 1;
    while time(turn, turns) < LEAST {
        turns *= 2;
    }
    turns
}

fn time(turn: &mut dyn FnMut(), turns: u32) -> Duration {
    let start = Instant::now();
    for _ in 0..turns {
        turn();
    }
    start.elapsed()
}

fn median(mut times: Vec<Duration>) -> f64 {
    times.sort();
    times[times.len() / 2].as_nanos() as f64
}
