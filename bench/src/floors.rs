//! Floors: what the order of document 01 takes by itself. A lane's additions wait for each other, so no
//! program that keeps the order is faster than these additions alone, whatever the Rust takes.
use crate::measure::Turn;
use std::hint::black_box;

/// What a call may take above its floor, where its bar lies below what a processor can do: a share of
/// it, and so many nanoseconds for its checks and for handing its answer to C.
const SHARE: f64 = 0.05;
const CALL: f64 = 10.0;

/// Whether a call takes hardly more than its floor, both in nanoseconds.
pub fn is_near(ours: f64, floor: f64) -> bool {
    ours <= floor + SHARE * floor + CALL
}

/// The calls that are little more than additions in the fixed order.
const CALLS: [&str; 2] = ["canonical_dot_pub", "canonical_sum_pub"];

/// A chunk's places, and its lanes.
const CHUNK: usize = 8_192;
const LANES: usize = 8;

/// The additions of a call on so many values, for the calls that have a floor.
pub fn floor_of(call: &str, values: usize) -> Option<Turn> {
    if !CALLS.contains(&call) {
        return None;
    }
    Some(Box::new(move || {
        black_box(additions(black_box(values), black_box([1.0; LANES])));
    }))
}

/// The additions of a row of n places, with the same eight numbers in the place of readings.
fn additions(n: usize, step: [f32; LANES]) -> f32 {
    let sum_of = |places: usize| tree(lanes(places / LANES, step));
    let whole = (0..n / CHUNK).map(|_| sum_of(black_box(CHUNK)));
    let rest = (n % CHUNK > 0).then(|| sum_of(n % CHUNK));
    whole.chain(rest).sum()
}

/// The eight lanes after so many turns.
fn lanes(turns: usize, step: [f32; LANES]) -> [f32; LANES] {
    let mut lanes = [0.0; LANES];
    for _ in 0..turns {
        for (lane, number) in lanes.iter_mut().zip(step) {
            *lane += number;
        }
    }
    lanes
}

/// The tree of eight lanes.
fn tree([a, b, c, d, e, f, g, h]: [f32; LANES]) -> f32 {
    ((a + b) + (c + d)) + ((e + f) + (g + h))
}
