//! A layer that is worked by pieces, and all that its calls are lent.
use crate::fixed_order_sums::readings;
use crate::measure::Size;
use crate::q5_k;
use jambharrow::{Layer, Refusal};
use oracle::error::Result as RustResult;
use oracle::inputs::{self, trained_scale, Layout};
use oracle::ops::quant;
use oracle::random::Random;

/// out_feat and in_feat: one row of one block, the largest that a record may hold, and rows of more
/// than one chunk.
pub const SHAPES: [(Size, [usize; 2]); 3] = [
    (Size::Small, [1, 256]),
    (Size::Device, [16, 2_048]),
    (Size::Large, [64, 16_384]),
];

/// The places of a chunk at most.
pub const CHUNK: usize = 8_192;

/// A layer in one go: readings, weights and output, batch, in_feat and out_feat.
type OneGo<T> = fn(&[f32], &[u8], &mut [f32], usize, usize, usize) -> T;

/// The dot of a row in one go: readings, weights and n.
type RowDot = fn(&[f32], &[u8], usize) -> RustResult<f32>;

/// A format, and a layer and a row of it in one go.
pub struct Format {
    pub name: &'static str,
    pub layout: Layout,
    pub one_go: OneGo<Result<(), Refusal>>,
    pub rust_one_go: OneGo<RustResult<()>>,
    pub rust_row_dot: RowDot,
    byte: u8,
}

pub const FORMATS: [Format; 3] = [
    Format {
        name: "Q4_K",
        layout: inputs::Q4_K,
        one_go: jambharrow::linear_q4_k_fused,
        rust_one_go: quant::linear_q4_k_fused,
        rust_row_dot: quant::canonical_dot_q4k_fused,
        byte: Layer::Q4_K,
    },
    Format {
        name: "Q5_K",
        layout: inputs::Q5_K,
        one_go: jambharrow::linear_q5_k_fused,
        rust_one_go: q5_k::linear_q5_k_fused,
        rust_row_dot: q5_k::canonical_dot_q5k_fused,
        byte: Layer::Q5_K,
    },
    Format {
        name: "Q6_K",
        layout: inputs::Q6_K,
        one_go: jambharrow::linear_q6_k_fused,
        rust_one_go: quant::linear_q6_k_fused,
        rust_row_dot: quant::q6k_fused_f32_dot,
        byte: Layer::Q6_K,
    },
];

/// A layer, and all that its calls are lent.
#[derive(Clone)]
pub struct Work {
    pub layer: Layer,
    pub w: Vec<u8>,
    pub x: Vec<f32>,
    pub slots: Vec<f32>,
    pub marks: Vec<u8>,
    pub y: Vec<f32>,
}

impl Format {
    /// A layer of a shape, not yet open.
    pub fn work(&self, [out_feat, in_feat]: [usize; 2]) -> Work {
        let mut random = Random::new(in_feat as u64);
        let blocks = out_feat * in_feat / self.layout.values;
        let pieces = out_feat * in_feat.div_ceil(CHUNK);
        Work {
            layer: Layer {
                format: self.byte,
                in_feat,
                out_feat,
            },
            w: self.layout.blocks(&mut random, blocks, trained_scale),
            x: readings(&mut random, in_feat),
            slots: vec![0.0; pieces],
            marks: vec![0; pieces],
            y: vec![0.0; out_feat],
        }
    }
}
