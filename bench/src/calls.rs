//! The calls that are measured.
use crate::measure::Row;
use crate::{
    activation_blocks, binary16, block_converters, block_decoders, block_quantizers,
    fixed_order_sums, fused_dots, given_scales, linear_layers, stepped_calls, stepped_layer,
};

pub struct Call {
    /// The name of the Rust's function, or of what it does not have.
    pub name: &'static str,
    /// The inputs it is measured on, a row of the table for each.
    pub rows: fn() -> Vec<Row>,
}

/// Every public call, in the order of the table, and last the stepped layer as a whole.
pub static CALLS: [Call; 48] = [
    binary16::F16_TO_F32,
    binary16::F32_TO_F16,
    block_decoders::DEQUANTIZE_Q4_0,
    block_decoders::DEQUANTIZE_Q4_0_GGML,
    block_decoders::DEQUANTIZE_Q5_0,
    block_decoders::DEQUANTIZE_Q8_0,
    block_decoders::DEQUANTIZE_IQ4_NL,
    block_decoders::DEQUANTIZE_Q4_K,
    block_decoders::DEQUANTIZE_Q5_K,
    block_decoders::DEQUANTIZE_Q6_K,
    block_quantizers::QUANTIZE_Q4_0,
    block_quantizers::QUANTIZE_Q4_0_GGML,
    block_quantizers::QUANTIZE_Q8_0,
    given_scales::QUANTIZE_IQ4_NL,
    block_converters::Q4_0_TO_GGML,
    block_converters::Q4_0_FROM_GGML,
    fixed_order_sums::CANONICAL_CHUNK,
    fixed_order_sums::CANONICAL_COMBINE,
    fixed_order_sums::CANONICAL_DOT_PUB,
    fixed_order_sums::CANONICAL_SUM_PUB,
    activation_blocks::QUANTIZE_BLOCK_Q8,
    activation_blocks::DOT_Q4K_Q8_BLOCK,
    activation_blocks::DOT_Q5K_Q8_BLOCK,
    activation_blocks::DOT_Q6K_Q8_BLOCK,
    activation_blocks::INTEGER_DOT_Q4K,
    activation_blocks::INTEGER_DOT_Q5K,
    fused_dots::CANONICAL_DOT_Q4K_FUSED,
    fused_dots::CANONICAL_DOT_Q5K_FUSED,
    fused_dots::Q6K_FUSED_F32_DOT,
    linear_layers::LINEAR_Q4_K_FUSED,
    linear_layers::LINEAR_Q5_K_FUSED,
    linear_layers::LINEAR_Q6_K_FUSED,
    linear_layers::LINEAR_Q4_K_INTEGER,
    linear_layers::LINEAR_Q5_K_INTEGER,
    linear_layers::LINEAR_Q6_K_INTEGER,
    linear_layers::LINEAR_Q4_K_INTEGER_RS,
    linear_layers::LINEAR_Q5_K_INTEGER_RS,
    linear_layers::LINEAR_Q6_K_INTEGER_RS,
    linear_layers::LINEAR_Q4_K_CPU,
    linear_layers::LINEAR_Q6_K_CPU,
    linear_layers::LINEAR_Q4_0_CPU,
    linear_layers::LINEAR_Q4_0_GGML_CPU,
    linear_layers::LINEAR_IQ4_NL_CPU,
    stepped_calls::OPEN,
    stepped_calls::PIECE,
    stepped_calls::RUN,
    stepped_calls::CLOSE,
    stepped_layer::STEPPED,
];
