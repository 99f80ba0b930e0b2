//! The calls that are compared and sampled.
use crate::compare::Comparison;
use crate::sample::Records;
use crate::{
    activation_blocks, binary16, block_converters, block_decoders, block_quantizers,
    fixed_order_sums, fused_dots, given_scales, linear_layers, stepped_layer,
};

pub struct Call {
    /// The name of the Rust's function, or of what is added to them.
    pub name: &'static str,
    /// Compares both sides.
    pub compare: fn(&mut Comparison),
    /// Stores a sample of the answers that ours is to give.
    pub sample: fn(&mut Records),
}

/// Every call. A call's tag in the stored sample is its place here, so that a new one comes
/// last.
pub static CALLS: [Call; 44] = [
    binary16::F16_TO_F32,
    binary16::F32_TO_F16,
    block_decoders::DEQUANTIZE_Q4_0,
    block_decoders::DEQUANTIZE_Q5_0,
    block_decoders::DEQUANTIZE_Q8_0,
    block_decoders::DEQUANTIZE_Q4_K,
    block_decoders::DEQUANTIZE_Q6_K,
    fixed_order_sums::CANONICAL_CHUNK,
    fixed_order_sums::CANONICAL_COMBINE,
    fixed_order_sums::CANONICAL_DOT_PUB,
    fixed_order_sums::CANONICAL_SUM_PUB,
    block_quantizers::QUANTIZE_Q4_0,
    block_quantizers::QUANTIZE_Q8_0,
    activation_blocks::QUANTIZE_BLOCK_Q8,
    activation_blocks::DOT_Q4K_Q8_BLOCK,
    activation_blocks::DOT_Q6K_Q8_BLOCK,
    activation_blocks::INTEGER_DOT_Q4K,
    fused_dots::CANONICAL_DOT_Q4K_FUSED,
    fused_dots::Q6K_FUSED_F32_DOT,
    linear_layers::LINEAR_Q4_K_FUSED,
    linear_layers::LINEAR_Q6_K_FUSED,
    linear_layers::LINEAR_Q4_K_INTEGER,
    linear_layers::LINEAR_Q6_K_INTEGER,
    linear_layers::LINEAR_Q4_K_INTEGER_RS,
    linear_layers::LINEAR_Q6_K_INTEGER_RS,
    linear_layers::LINEAR_Q4_K_CPU,
    linear_layers::LINEAR_Q6_K_CPU,
    linear_layers::LINEAR_Q4_0_CPU,
    stepped_layer::STEPPED,
    block_decoders::DEQUANTIZE_Q5_K,
    fused_dots::CANONICAL_DOT_Q5K_FUSED,
    activation_blocks::DOT_Q5K_Q8_BLOCK,
    activation_blocks::INTEGER_DOT_Q5K,
    linear_layers::LINEAR_Q5_K_FUSED,
    linear_layers::LINEAR_Q5_K_INTEGER,
    linear_layers::LINEAR_Q5_K_INTEGER_RS,
    block_decoders::DEQUANTIZE_Q4_0_GGML,
    block_quantizers::QUANTIZE_Q4_0_GGML,
    linear_layers::LINEAR_Q4_0_GGML_CPU,
    block_converters::Q4_0_TO_GGML,
    block_converters::Q4_0_FROM_GGML,
    block_decoders::DEQUANTIZE_IQ4_NL,
    given_scales::QUANTIZE_IQ4_NL,
    linear_layers::LINEAR_IQ4_NL_CPU,
];
