//! The block quantizers, over 256 readings, a row of the logger, and many. Ours count what scales
//! lost, which the Rust does not.
use crate::calls::Call;
use crate::measure::{Beside, Row, Size};
use crate::q4_0_ggml;
use jambharrow::{Lost, Refusal};
use oracle::inputs::reading;
use oracle::ops::quant;
use oracle::random::Random;
use std::hint::black_box;

pub const QUANTIZE_Q4_0: Call = Call {
    name: "quantize_q4_0",
    rows: || rows(18, jambharrow::quantize_q4_0, quant::quantize_q4_0),
};

pub const QUANTIZE_Q4_0_GGML: Call = Call {
    name: "quantize_q4_0_ggml",
    rows: || {
        let rust = q4_0_ggml::quantize_q4_0_ggml;
        rows(18, jambharrow::quantize_q4_0_ggml, rust)
    },
};

pub const QUANTIZE_Q8_0: Call = Call {
    name: "quantize_q8_0",
    rows: || rows(34, jambharrow::quantize_q8_0, quant::quantize_q8_0),
};

/// How many blocks of 32 readings a run has.
const RUNS: [(Size, usize); 3] = [(Size::Small, 8), (Size::Device, 64), (Size::Large, 2_048)];

/// How much of the Rust's time a quantizer may take at most.
const BAR: f64 = 0.7;

fn rows(
    bytes: usize,
    ours: impl Fn(&[f32], &mut [u8]) -> Result<Lost, Refusal> + Copy + 'static,
    rust: fn(&[f32]) -> oracle::error::Result<Vec<u8>>,
) -> Vec<Row> {
    let rust = black_box(rust);
    let row = |(size, blocks): (Size, usize)| {
        let mut random = Random::new(blocks as u64);
        let data: Vec<f32> = (0..32 * blocks).map(|_| reading(&mut random)).collect();
        let theirs = data.clone();
        let mut out = vec![0; bytes * blocks];
        Row {
            input: format!("{blocks} blocks of readings"),
            size,
            values: 32 * blocks,
            calls: 1,
            bar: (size != Size::Small).then_some(BAR),
            vector: None,
            ours: Box::new(move || {
                let said = ours(black_box(&data), black_box(&mut out));
                let Lost { flushed, infinite } = said.expect("room for whole blocks");
                black_box([flushed, infinite]);
            }),
            beside: Beside::Rust(Box::new(move || {
                black_box(rust(black_box(&theirs))).expect("whole blocks");
            })),
        }
    };
    RUNS.into_iter().map(row).collect()
}
