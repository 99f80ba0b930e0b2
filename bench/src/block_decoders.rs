//! The block decoders, over the blocks of one K block's values, of a row of the logger, and of many.
use crate::calls::Call;
use crate::measure::{Beside, Row, Size};
use crate::{iq4_nl, q4_0_ggml, q5_k};
use jambharrow::Refusal;
use oracle::inputs::{self, any_scale, trained_scale, Draw, Layout};
use oracle::ops::quant;
use oracle::random::Random;
use std::hint::black_box;

pub const DEQUANTIZE_Q4_0: Call = Call {
    name: "dequantize_q4_0",
    rows: || {
        rows(
            &inputs::Q4_0,
            1.0,
            jambharrow::dequantize_q4_0,
            quant::dequantize_q4_0,
        )
    },
};

pub const DEQUANTIZE_Q4_0_GGML: Call = Call {
    name: "dequantize_q4_0_ggml",
    rows: || {
        rows(
            &inputs::Q4_0,
            1.0,
            jambharrow::dequantize_q4_0_ggml,
            q4_0_ggml::dequantize_q4_0_ggml,
        )
    },
};

pub const DEQUANTIZE_Q5_0: Call = Call {
    name: "dequantize_q5_0",
    rows: || {
        rows(
            &inputs::Q5_0,
            1.0,
            jambharrow::dequantize_q5_0,
            quant::dequantize_q5_0,
        )
    },
};

pub const DEQUANTIZE_Q8_0: Call = Call {
    name: "dequantize_q8_0",
    rows: || {
        rows(
            &inputs::Q8_0,
            1.0,
            jambharrow::dequantize_q8_0,
            quant::dequantize_q8_0,
        )
    },
};

pub const DEQUANTIZE_IQ4_NL: Call = Call {
    name: "dequantize_iq4_nl",
    rows: || {
        rows(
            &inputs::IQ4_NL,
            1.0,
            jambharrow::dequantize_iq4_nl,
            iq4_nl::dequantize_iq4_nl,
        )
    },
};

pub const DEQUANTIZE_Q4_K: Call = Call {
    name: "dequantize_q4_k",
    rows: || {
        rows(
            &inputs::Q4_K,
            0.7,
            jambharrow::dequantize_q4_k,
            quant::dequantize_q4_k,
        )
    },
};

pub const DEQUANTIZE_Q5_K: Call = Call {
    name: "dequantize_q5_k",
    rows: || {
        rows(
            &inputs::Q5_K,
            0.8,
            jambharrow::dequantize_q5_k,
            q5_k::dequantize_q5_k,
        )
    },
};

pub const DEQUANTIZE_Q6_K: Call = Call {
    name: "dequantize_q6_k",
    rows: || {
        rows(
            &inputs::Q6_K,
            0.3,
            jambharrow::dequantize_q6_k,
            quant::dequantize_q6_k,
        )
    },
};

/// How many values a run of blocks has.
const RUNS: [(Size, usize); 3] = [
    (Size::Small, 256),
    (Size::Device, 2_048),
    (Size::Large, 65_536),
];

/// The kinds of scale that a run has.
const SCALES: [(&str, Draw<u16>); 2] = [("trained", trained_scale), ("any", any_scale)];

fn rows(
    layout: &Layout,
    bar: f64,
    ours: impl Fn(&[u8], &mut [f32]) -> Result<(), Refusal> + Copy + 'static,
    rust: fn(&[u8]) -> oracle::error::Result<Vec<f32>>,
) -> Vec<Row> {
    let rust = black_box(rust);
    let row = |(size, values): (Size, usize), kind: &str, scale| {
        let count = values / layout.values;
        let blocks = if count == 1 { "block" } else { "blocks" };
        let packed = layout.blocks(&mut Random::new(values as u64), count, scale);
        let theirs = packed.clone();
        let mut out = vec![0.0; values];
        Row {
            input: format!("{count} {blocks}, {kind} scales"),
            size,
            values,
            calls: 1,
            bar: (size != Size::Small).then_some(bar),
            vector: Some(values),
            ours: Box::new(move || {
                ours(black_box(&packed), black_box(&mut out)).expect("room for whole blocks");
            }),
            beside: Beside::Rust(Box::new(move || {
                black_box(rust(black_box(&theirs))).expect("whole blocks");
            })),
        }
    };
    RUNS.into_iter()
        .flat_map(|run| SCALES.map(|(kind, scale)| row(run, kind, scale)))
        .collect()
}
