//! Ours, and no part of vitni-tensor: a layer of a format of 32 values that the Rust does not have. All
//! weights are decoded into a vector first, as in the Rust's `linear_q4_0_cpu`. That shape is of
//! `src/ops/quant.rs` of vitni-tensor, copyright 2026 vitnify, under the Apache License, Version 2.0
//! (LICENSE, NOTICE); changed are the decoder, which is given, and the names.
use oracle::error::{Error, Result};
use oracle::ops::quant::canonical_dot_pub;

/// The bytes and the values of a block: Q4_0, in either order, and IQ4_NL.
const BLOCK_BYTES: usize = 18;
const BLOCK_NUMEL: usize = 32;

/// A layer's rows of readings and of weights, and its sizes.
pub struct Layer<'a> {
    pub x: &'a [f32],
    pub w: &'a [u8],
    pub batch: usize,
    pub in_feat: usize,
    pub out_feat: usize,
}

pub fn linear_cpu(
    decode: impl Fn(&[u8]) -> Result<Vec<f32>>,
    layer: Layer,
    y_out: &mut [f32],
) -> Result<()> {
    let Layer {
        x,
        w,
        batch,
        in_feat,
        out_feat,
    } = layer;
    if in_feat % BLOCK_NUMEL != 0 {
        return Err(Error::Internal("in_feat must be multiple of 32"));
    }
    if w.len() != out_feat * (in_feat / BLOCK_NUMEL) * BLOCK_BYTES {
        return Err(Error::Internal("weight blob length mismatch"));
    }
    if x.len() != batch * in_feat || y_out.len() != batch * out_feat {
        return Err(Error::Internal("x or y_out size mismatch"));
    }
    let w_f32 = decode(w)?;
    for b in 0..batch {
        for o in 0..out_feat {
            let w_row = &w_f32[o * in_feat..(o + 1) * in_feat];
            let x_row = &x[b * in_feat..(b + 1) * in_feat];
            y_out[b * out_feat + o] = canonical_dot_pub(x_row, w_row, in_feat);
        }
    }
    Ok(())
}
