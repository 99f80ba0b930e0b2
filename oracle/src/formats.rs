//! The formats of a layer's weights, by the byte that names one in the stepped layer and in a record.
use crate::q5_k;
use oracle::error::Result;
use oracle::inputs::{self, Layout};
use oracle::ops::quant;
use oracle::random::Random;

/// A format, and how the other side decodes its blocks and has the fused dot of a row: the Rust, and
/// for Q5_K, which the Rust does not have, the reference.
pub struct Format {
    pub name: &'static str,
    pub byte: u8,
    pub layout: Layout,
    pub decode: fn(&[u8]) -> Result<Vec<f32>>,
    pub fused_row_dot: fn(&[f32], &[u8], usize) -> Result<f32>,
}

pub static FORMATS: [Format; 3] = [
    Format {
        name: "Q4_K",
        byte: 4,
        layout: inputs::Q4_K,
        decode: quant::dequantize_q4_k,
        fused_row_dot: quant::canonical_dot_q4k_fused,
    },
    Format {
        name: "Q5_K",
        byte: 5,
        layout: inputs::Q5_K,
        decode: q5_k::dequantize,
        fused_row_dot: q5_k::fused_row_dot,
    },
    Format {
        name: "Q6_K",
        byte: 6,
        layout: inputs::Q6_K,
        decode: quant::dequantize_q6_k,
        fused_row_dot: quant::q6k_fused_f32_dot,
    },
];

/// The format of a byte, where there is one.
pub fn named(byte: u8) -> Option<&'static Format> {
    FORMATS.iter().find(|format| format.byte == byte)
}

/// The byte of any format.
pub fn any_format(random: &mut Random) -> u8 {
    FORMATS[random.below(FORMATS.len())].byte
}
