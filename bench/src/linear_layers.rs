//! The layers, over one row of readings.
use crate::calls::Call;
use crate::measure::{Beside, Row, Size};
use crate::{iq4_nl, q4_0_ggml, q5_k};
use jambharrow::Refusal;
use oracle::error::Result as RustResult;
use oracle::inputs::{reading, trained_scale, Layout, IQ4_NL, Q4_0, Q4_K, Q5_K, Q6_K};
use oracle::ops::quant;
use oracle::random::Random;
use std::hint::black_box;

pub const LINEAR_Q4_K_FUSED: Call = Call {
    name: "linear_q4_k_fused",
    rows: || {
        let rust = quant::linear_q4_k_fused;
        rows(&Q4_K, 0.8, jambharrow::linear_q4_k_fused, rust)
    },
};

pub const LINEAR_Q5_K_FUSED: Call = Call {
    name: "linear_q5_k_fused",
    rows: || {
        let rust = q5_k::linear_q5_k_fused;
        rows(&Q5_K, 0.85, jambharrow::linear_q5_k_fused, rust)
    },
};

pub const LINEAR_Q6_K_FUSED: Call = Call {
    name: "linear_q6_k_fused",
    rows: || {
        let rust = quant::linear_q6_k_fused;
        rows(&Q6_K, 0.35, jambharrow::linear_q6_k_fused, rust)
    },
};

pub const LINEAR_Q4_K_INTEGER: Call = Call {
    name: "linear_q4_k_integer",
    rows: || {
        let rust = quant::linear_q4_k_integer;
        rows(&Q4_K, 0.8, jambharrow::linear_q4_k_integer, rust)
    },
};

pub const LINEAR_Q5_K_INTEGER: Call = Call {
    name: "linear_q5_k_integer",
    rows: || {
        let rust = q5_k::linear_q5_k_integer;
        rows(&Q5_K, 0.8, jambharrow::linear_q5_k_integer, rust)
    },
};

pub const LINEAR_Q6_K_INTEGER: Call = Call {
    name: "linear_q6_k_integer",
    rows: || {
        let rust = quant::linear_q6_k_integer;
        rows(&Q6_K, 0.8, jambharrow::linear_q6_k_integer, rust)
    },
};

pub const LINEAR_Q4_K_INTEGER_RS: Call = Call {
    name: "linear_q4_k_integer_rs",
    rows: || {
        let rust = quant::linear_q4_k_integer_rs;
        rows(&Q4_K, 0.8, jambharrow::linear_q4_k_integer_rs, rust)
    },
};

pub const LINEAR_Q5_K_INTEGER_RS: Call = Call {
    name: "linear_q5_k_integer_rs",
    rows: || {
        let rust = q5_k::linear_q5_k_integer_rs;
        rows(&Q5_K, 0.8, jambharrow::linear_q5_k_integer_rs, rust)
    },
};

pub const LINEAR_Q6_K_INTEGER_RS: Call = Call {
    name: "linear_q6_k_integer_rs",
    rows: || {
        let rust = quant::linear_q6_k_integer_rs;
        rows(&Q6_K, 0.8, jambharrow::linear_q6_k_integer_rs, rust)
    },
};

pub const LINEAR_Q4_K_CPU: Call = Call {
    name: "linear_q4_k_cpu",
    rows: || {
        let rust = quant::linear_q4_k_cpu;
        rows_cpu(&Q4_K, jambharrow::linear_q4_k_cpu, rust)
    },
};

pub const LINEAR_Q6_K_CPU: Call = Call {
    name: "linear_q6_k_cpu",
    rows: || {
        let rust = quant::linear_q6_k_cpu;
        rows_cpu(&Q6_K, jambharrow::linear_q6_k_cpu, rust)
    },
};

pub const LINEAR_Q4_0_CPU: Call = Call {
    name: "linear_q4_0_cpu",
    rows: || {
        let rust = quant::linear_q4_0_cpu;
        rows_cpu(&Q4_0, jambharrow::linear_q4_0_cpu, rust)
    },
};

pub const LINEAR_Q4_0_GGML_CPU: Call = Call {
    name: "linear_q4_0_ggml_cpu",
    rows: || {
        let rust = q4_0_ggml::linear_q4_0_ggml_cpu;
        rows_cpu(&Q4_0, jambharrow::linear_q4_0_ggml_cpu, rust)
    },
};

pub const LINEAR_IQ4_NL_CPU: Call = Call {
    name: "linear_iq4_nl_cpu",
    rows: || {
        let rust = iq4_nl::linear_iq4_nl_cpu;
        rows_cpu(&IQ4_NL, jambharrow::linear_iq4_nl_cpu, rust)
    },
};

/// The out_feat and in_feat of a layer: one row of one block, the largest that a record may hold,
/// and one of a large network.
const LAYERS: [(Size, [usize; 2]); 3] = [
    (Size::Small, [1, 256]),
    (Size::Device, [16, 2_048]),
    (Size::Large, [1_024, 4_096]),
];

/// Readings, packed bytes, the output, batch, in_feat and out_feat.
type Linear = fn(&[f32], &[u8], &mut [f32], usize, usize, usize) -> RustResult<()>;

fn rows(
    layout: &Layout,
    bar: f64,
    ours: impl Fn(&[f32], &[u8], &mut [f32], usize, usize, usize) -> Result<(), Refusal>
        + Copy
        + 'static,
    rust: Linear,
) -> Vec<Row> {
    let ours =
        move |x: &[f32], w: &[u8], y: &mut [f32], [b, i, o]: [usize; 3]| ours(x, w, y, b, i, o);
    LAYERS
        .map(|layer| row(layout, layer, bar, None, ours, rust))
        .into()
}

/// The Rust decodes the weights of all rows into a vector; ours takes scratch for one row.
fn rows_cpu(
    layout: &Layout,
    ours: impl Fn(&[f32], &[u8], &mut [f32], &mut [f32], usize, usize, usize) -> Result<(), Refusal>
        + Copy
        + 'static,
    rust: Linear,
) -> Vec<Row> {
    LAYERS
        .map(|(size, [out_feat, in_feat])| {
            let mut scratch = vec![0.0; in_feat];
            let vector = Some(out_feat * in_feat);
            let ours = move |x: &[f32], w: &[u8], y: &mut [f32], [b, i, o]: [usize; 3]| {
                ours(x, w, y, black_box(&mut scratch), b, i, o)
            };
            row(layout, (size, [out_feat, in_feat]), 0.5, vector, ours, rust)
        })
        .into()
}

fn row(
    layout: &Layout,
    (size, [out_feat, in_feat]): (Size, [usize; 2]),
    bar: f64,
    vector: Option<usize>,
    mut ours: impl FnMut(&[f32], &[u8], &mut [f32], [usize; 3]) -> Result<(), Refusal> + 'static,
    rust: Linear,
) -> Row {
    let rust = black_box(rust);
    let mut random = Random::new(in_feat as u64);
    let x: Vec<f32> = (0..in_feat).map(|_| reading(&mut random)).collect();
    let w = layout.blocks(
        &mut random,
        out_feat * in_feat / layout.values,
        trained_scale,
    );
    let y = vec![0.0; out_feat];
    let (their_x, their_w, mut their_y, mut y) = (x.clone(), w.clone(), y.clone(), y);
    let rows = if out_feat == 1 { "row" } else { "rows" };
    Row {
        input: format!("{out_feat} {rows} of {in_feat}"),
        size,
        values: out_feat * in_feat,
        calls: 1,
        bar: (size != Size::Small).then_some(bar),
        vector,
        ours: Box::new(move || {
            let (x, w) = black_box((&x, &w));
            ours(x, w, black_box(&mut y), [1, in_feat, out_feat]).expect("a whole layer");
        }),
        beside: Beside::Rust(Box::new(move || {
            let (x, w) = black_box((&their_x, &their_w));
            rust(x, w, black_box(&mut their_y), 1, in_feat, out_feat).expect("a whole layer");
        })),
    }
}
