//! The converters between the two orders of Q4_0, over 256 values, a row of the logger, and many. The
//! Rust has none: beside them stands its decoder of Q4_0, on the same blocks, since a reader who
//! converts could decode instead.
use crate::calls::Call;
use crate::measure::{Beside, Row, Size};
use jambharrow::Refusal;
use oracle::inputs::{trained_scale, Q4_0};
use oracle::ops::quant;
use oracle::random::Random;
use std::hint::black_box;

pub const Q4_0_TO_GGML: Call = Call {
    name: "q4_0_to_ggml",
    rows: || rows(jambharrow::q4_0_to_ggml),
};

pub const Q4_0_FROM_GGML: Call = Call {
    name: "q4_0_from_ggml",
    rows: || rows(jambharrow::q4_0_from_ggml),
};

/// How many blocks a run has.
const RUNS: [(Size, usize); 3] = [(Size::Small, 8), (Size::Device, 64), (Size::Large, 2_048)];

/// How much of the time of the Rust's decoder a converter may take at most.
const BAR: f64 = 1.0;

fn rows(ours: impl Fn(&[u8], &mut [u8]) -> Result<(), Refusal> + Copy + 'static) -> Vec<Row> {
    let rust: fn(&[u8]) -> oracle::error::Result<Vec<f32>> = black_box(quant::dequantize_q4_0);
    let row = |(size, blocks): (Size, usize)| {
        let values = blocks * Q4_0.values;
        let packed = Q4_0.blocks(&mut Random::new(values as u64), blocks, trained_scale);
        let theirs = packed.clone();
        let mut out = vec![0; packed.len()];
        Row {
            input: format!("{blocks} blocks"),
            size,
            values,
            calls: 1,
            bar: (size != Size::Small).then_some(BAR),
            vector: Some(values),
            ours: Box::new(move || {
                ours(black_box(&packed), black_box(&mut out)).expect("room for whole blocks");
            }),
            beside: Beside::Rust(Box::new(move || {
                black_box(rust(black_box(&theirs))).expect("whole blocks");
            })),
        }
    };
    RUNS.into_iter().map(row).collect()
}
