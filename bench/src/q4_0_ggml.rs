//! Ours, and no part of vitni-tensor: it stands for what the Rust does not have, Q4_0 in GGML's order,
//! in the shape that the Rust's calls of Q4_0 have, so that ours is measured beside such code. That
//! shape is of `src/ops/quant.rs` of vitni-tensor, copyright 2026 vitnify, under the Apache License,
//! Version 2.0 (LICENSE, NOTICE); changed are the places of the nibbles, and the names.
use crate::decoded_first::{linear_cpu, Layer};
use oracle::error::{Error, Result};
use oracle::ops::quant::reach::{f16_to_f32, f32_to_f16};

const BLOCK_BYTES: usize = 18;
const BLOCK_NUMEL: usize = 32;

pub fn dequantize_q4_0_ggml(q4_data: &[u8]) -> Result<Vec<f32>> {
    if q4_data.len() % BLOCK_BYTES != 0 {
        return Err(Error::Internal("Q4_0 byte length not a multiple of 18"));
    }
    let n_blocks = q4_data.len() / BLOCK_BYTES;
    let mut out = vec![0f32; n_blocks * BLOCK_NUMEL];
    for b in 0..n_blocks {
        let off = b * BLOCK_BYTES;
        let scale = f16_to_f32(u16::from_le_bytes([q4_data[off], q4_data[off + 1]]));
        let qs = &q4_data[off + 2..off + BLOCK_BYTES];
        let out_off = b * BLOCK_NUMEL;
        for k in 0..16 {
            let byte = qs[k];
            let lo = (byte & 0x0F) as i32 - 8;
            let hi = (byte >> 4) as i32 - 8;
            out[out_off + k] = scale * lo as f32;
            out[out_off + k + 16] = scale * hi as f32;
        }
    }
    Ok(out)
}

pub fn quantize_q4_0_ggml(data: &[f32]) -> Result<Vec<u8>> {
    if data.len() % BLOCK_NUMEL != 0 {
        return Err(Error::Internal("Q4_0 quantize: input not a multiple of 32"));
    }
    let n_blocks = data.len() / BLOCK_NUMEL;
    let mut out = vec![0u8; n_blocks * BLOCK_BYTES];
    for b in 0..n_blocks {
        let block = &data[b * BLOCK_NUMEL..(b + 1) * BLOCK_NUMEL];
        let mut amax = 0f32;
        let mut max_val = 0f32;
        for &v in block {
            if v.abs() > amax {
                amax = v.abs();
                max_val = v;
            }
        }
        let scale = max_val / -8.0;
        let inv_scale = if scale != 0.0 { 1.0 / scale } else { 0.0 };
        let off = b * BLOCK_BYTES;
        out[off..off + 2].copy_from_slice(&f32_to_f16(scale).to_le_bytes());
        for k in 0..16 {
            let x0 = block[k] * inv_scale + 8.5;
            let x1 = block[k + 16] * inv_scale + 8.5;
            let q0 = (x0 as i32).clamp(0, 15) as u8;
            let q1 = (x1 as i32).clamp(0, 15) as u8;
            out[off + 2 + k] = q0 | (q1 << 4);
        }
    }
    Ok(out)
}

pub fn linear_q4_0_ggml_cpu(
    x: &[f32],
    w: &[u8],
    y_out: &mut [f32],
    batch: usize,
    in_feat: usize,
    out_feat: usize,
) -> Result<()> {
    let layer = Layer {
        x,
        w,
        batch,
        in_feat,
        out_feat,
    };
    linear_cpu(dequantize_q4_0_ggml, layer, y_out)
}

/// What stands beside ours has to answer as ours does: otherwise its time says nothing.
#[cfg(test)]
mod tests {
    use super::*;
    use crate::fixed_order_sums::readings;
    use jambharrow as ours;
    use oracle::inputs::{trained_scale, Q4_0};
    use oracle::random::Random;

    const IN_FEAT: usize = 8_224;
    const OUT_FEAT: usize = 3;

    /// Two rows of readings, and the weights of a layer.
    fn input() -> (Vec<f32>, Vec<u8>) {
        let mut random = Random::new(4);
        let x = readings(&mut random, 2 * IN_FEAT);
        let blocks = OUT_FEAT * IN_FEAT / BLOCK_NUMEL;
        (x, Q4_0.blocks(&mut random, blocks, trained_scale))
    }

    #[test]
    fn decoded_values_are_the_same() {
        let (_, w) = input();
        let mut out = vec![0.0; OUT_FEAT * IN_FEAT];
        assert_eq!(ours::dequantize_q4_0_ggml(&w, &mut out), Ok(()));
        assert_eq!(dequantize_q4_0_ggml(&w), Ok(out));
    }

    #[test]
    fn bytes_are_the_same() {
        let (x, _) = input();
        let mut out = vec![0; x.len() / BLOCK_NUMEL * BLOCK_BYTES];
        let lost = ours::quantize_q4_0_ggml(&x, &mut out);
        assert_eq!(lost, Ok(ours::Lost::default()));
        assert_eq!(quantize_q4_0_ggml(&x), Ok(out));
    }

    #[test]
    fn layers_are_the_same() {
        let (x, w) = input();
        let mut y = [[0.0; 2 * OUT_FEAT]; 2];
        let theirs = linear_q4_0_ggml_cpu(&x, &w, &mut y[0], 2, IN_FEAT, OUT_FEAT);
        assert_eq!(theirs, Ok(()));
        let scratch = &mut [0.0; IN_FEAT];
        let ours = ours::linear_q4_0_ggml_cpu(&x, &w, &mut y[1], scratch, 2, IN_FEAT, OUT_FEAT);
        assert_eq!(ours, Ok(()));
        assert_eq!(y[0], y[1]);
        assert!(y[0].iter().all(|output| output.is_normal()));
    }
}
