//! The arithmetic of a small quantised network for a pressure logger. The work is done by a library
//! that is proved to meet its contracts; these functions are the safe way to it from Rust. They
//! need no set-up, keep nothing between calls and take no memory from the heap; the crate is
//! `no_std`.
//!
//! A function has the name and the parameters of the one of quant.rs that it answers for; where
//! that returns a vector, it fills memory that is lent to it, where that decodes a layer's weights
//! into a vector, it takes scratch for a row of them, and where it can refuse, it says why.
//! [`f32_to_f16`] and the block quantizers say beside their bits what was lost in binary16.
//! Where a result is a NaN, its bits may be those of any NaN; every other result has the bits of
//! quant.rs, within the sizes below. quant.rs has no Q5_K: the functions of that format are named
//! after those of Q4_K, and have their formulas and order of operations. Nor has it Q4_0 in GGML's
//! order, in which other tools write it: [`dequantize_q4_0_ggml`], [`quantize_q4_0_ggml`] and
//! [`linear_q4_0_ggml_cpu`] work on such blocks, and [`q4_0_to_ggml`] and [`q4_0_from_ggml`] convert
//! them. Nor has it IQ4_NL: [`dequantize_iq4_nl`], [`linear_iq4_nl_cpu`], and [`quantize_iq4_nl`], which
//! is given its scale.
#![cfg_attr(not(test), no_std)]

mod activation_blocks;
mod binary16;
mod block_converters;
mod block_decoders;
mod block_quantizers;
mod fixed_order_sums;
mod fused_dots;
mod linear_layers;
mod refusal;
mod row_dot;
mod stepped_layer;
mod sys;

pub use activation_blocks::{
    dot_q4k_q8_block, dot_q5k_q8_block, dot_q6k_q8_block, integer_dot_q4k, integer_dot_q5k,
    quantize_block_q8, quantize_block_q8_into, Q8Block,
};
pub use binary16::{f16_to_f32, f32_to_f16, How, Narrowed};
pub use block_converters::{q4_0_from_ggml, q4_0_to_ggml};
pub use block_decoders::{
    dequantize_iq4_nl, dequantize_q4_0, dequantize_q4_0_ggml, dequantize_q4_k, dequantize_q5_0,
    dequantize_q5_k, dequantize_q6_k, dequantize_q8_0,
};
pub use block_quantizers::{
    quantize_iq4_nl, quantize_q4_0, quantize_q4_0_ggml, quantize_q8_0, Lost,
};
pub use fixed_order_sums::{
    canonical_chunk, canonical_combine, canonical_dot_pub, canonical_sum_pub,
};
pub use fused_dots::{canonical_dot_q4k_fused, canonical_dot_q5k_fused, q6k_fused_f32_dot};
pub use linear_layers::{
    linear_iq4_nl_cpu, linear_q4_0_cpu, linear_q4_0_ggml_cpu, linear_q4_k_cpu, linear_q4_k_fused,
    linear_q4_k_integer, linear_q4_k_integer_rs, linear_q5_k_fused, linear_q5_k_integer,
    linear_q5_k_integer_rs, linear_q6_k_cpu, linear_q6_k_fused, linear_q6_k_integer,
    linear_q6_k_integer_rs,
};
pub use refusal::{Blocks, Refusal};
pub use stepped_layer::{Layer, Progress};

/// The version of the library that is linked: a thousand times its major number, and its minor one.
///
/// ```
/// assert_eq!(jambharrow::version() / 1_000, 4);
/// ```
#[inline]
pub fn version() -> u32 {
    sys::jambharrow_version()
}

/// n and in_feat at most.
pub const MOST_IN: usize = 131_072;
/// out_feat at most.
pub const MOST_OUT: usize = 65_536;
/// batch at most.
pub const MOST_BATCH: usize = 1_024;
/// Floats at most, where a quantizer or `canonical_chunk` is given them.
pub const MOST_FLOATS: usize = 131_072;
/// Bytes at most, where a block decoder or a converter is given them.
pub const MOST_BYTES: usize = 16_777_216;
