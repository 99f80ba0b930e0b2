//! The fixed-order sums, over rows of readings.
use crate::calls::Call;
use crate::measure::{Beside, Row, Size, Turn};
use oracle::inputs::reading;
use oracle::ops::quant;
use oracle::random::Random;
use std::hint::black_box;
use std::rc::Rc;

pub const CANONICAL_CHUNK: Call = Call {
    name: "canonical_chunk",
    rows: rows_canonical_chunk,
};

pub const CANONICAL_COMBINE: Call = Call {
    name: "canonical_combine",
    rows: rows_canonical_combine,
};

pub const CANONICAL_DOT_PUB: Call = Call {
    name: "canonical_dot_pub",
    rows: rows_canonical_dot_pub,
};

pub const CANONICAL_SUM_PUB: Call = Call {
    name: "canonical_sum_pub",
    rows: rows_canonical_sum_pub,
};

/// The lengths of a row.
const ROWS: [(Size, usize); 4] = [
    (Size::Small, 256),
    (Size::Device, 2_048),
    (Size::Large, 8_192),
    (Size::Large, 131_072),
];

/// The lengths of a chunk: the longest that a row has is the last.
const CHUNKS: [(Size, usize); 3] = [
    (Size::Small, 256),
    (Size::Device, 2_048),
    (Size::Large, 8_192),
];

/// The lengths of a list of sums: the blocks of a row of the logger, the chunks of the longest row,
/// and its blocks.
const LISTS: [(Size, usize); 3] = [(Size::Small, 8), (Size::Device, 16), (Size::Large, 512)];

fn rows_canonical_chunk() -> Vec<Row> {
    let row = |length| {
        row(
            length,
            None,
            |x, w, _| jambharrow::canonical_chunk(x, w).expect("as many weights as readings"),
            |x, w, _| quant::canonical_chunk(x, w),
        )
    };
    CHUNKS.map(row).into()
}

fn rows_canonical_dot_pub() -> Vec<Row> {
    let row = |length| {
        row(
            length,
            Some(0.3),
            |x, w, n| jambharrow::canonical_dot_pub(x, w, n).expect("rows of n places"),
            quant::canonical_dot_pub,
        )
    };
    ROWS.map(row).into()
}

fn rows_canonical_sum_pub() -> Vec<Row> {
    let row = |length| {
        row(
            length,
            Some(0.5),
            |x, _, n| jambharrow::canonical_sum_pub(x, n).expect("a row of n places"),
            |x, _, n| quant::canonical_sum_pub(x, n),
        )
    };
    ROWS.map(row).into()
}

/// A call on two rows of readings and n, which is their length.
fn row(
    (size, len): (Size, usize),
    bar: Option<f64>,
    ours: impl Fn(&[f32], &[f32], usize) -> f32 + 'static,
    rust: fn(&[f32], &[f32], usize) -> f32,
) -> Row {
    let mut random = Random::new(len as u64);
    let both = Rc::new([readings(&mut random, len), readings(&mut random, len)]);
    Row {
        input: format!("{len} readings"),
        size,
        values: len,
        calls: 1,
        bar,
        vector: None,
        ours: turn(both.clone(), ours),
        beside: Beside::Rust(turn(both, black_box(rust))),
    }
}

fn turn(both: Rc<[Vec<f32>; 2]>, call: impl Fn(&[f32], &[f32], usize) -> f32 + 'static) -> Turn {
    Box::new(move || {
        let [x, w] = black_box(&*both);
        black_box(call(x, w, x.len()));
    })
}

pub fn readings(random: &mut Random, len: usize) -> Vec<f32> {
    (0..len).map(|_| reading(random)).collect()
}

/// The call changes its list, so a turn begins with a copy, which counts on both sides.
fn rows_canonical_combine() -> Vec<Row> {
    let rust: fn(&mut [f32]) -> f32 = black_box(quant::canonical_combine);
    let row = |(size, len): (Size, usize)| {
        let list = readings(&mut Random::new(len as u64), len);
        Row {
            input: format!("{len} sums, copied first"),
            size,
            values: len,
            calls: 1,
            bar: None,
            vector: None,
            ours: turn_of_combine(list.clone(), jambharrow::canonical_combine),
            beside: Beside::Rust(turn_of_combine(list, rust)),
        }
    };
    LISTS.map(row).into()
}

pub fn turn_of_combine(list: Vec<f32>, call: impl Fn(&mut [f32]) -> f32 + 'static) -> Turn {
    let mut copy = list.clone();
    Box::new(move || {
        copy.copy_from_slice(black_box(&list));
        black_box(call(black_box(&mut copy)));
    })
}
