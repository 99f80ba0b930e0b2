//! Ours, and no part of vitni-tensor: it stands for what the Rust does not have, the calls of Q5_K,
//! in the shape that the Rust's calls of Q4_K have, so that ours is measured beside such code. That
//! shape is of `src/ops/quant.rs` of vitni-tensor, copyright 2026 vitnify, under the Apache License,
//! Version 2.0 (LICENSE, NOTICE); changed are the layout, with its fifth bits, and the names.
use oracle::error::{Error, Result};
use oracle::ops::quant::{
    canonical_combine, quantize_block_q8, reach::f16_to_f32, Q8Block, CANON_CHUNK, CANON_LANES,
};

const BLOCK_BYTES: usize = 176;
const BLOCK_NUMEL: usize = 256;

#[inline]
fn get_scale_min_k4(j: usize, scales: &[u8; 12]) -> (u8, u8) {
    if j < 4 {
        (scales[j] & 0x3F, scales[j + 4] & 0x3F)
    } else {
        let d = (scales[j + 4] & 0x0F) | ((scales[j - 4] >> 6) << 4);
        let m = (scales[j + 4] >> 4) | ((scales[j] >> 6) << 4);
        (d, m)
    }
}

/// The nibble and its fifth bit.
#[inline]
fn quant(nibble: u8, qh: u8, sub_block: usize) -> u8 {
    nibble | ((qh >> sub_block) & 1) << 4
}

/// The values of one block.
#[inline]
fn dequantize_block(block: &[u8], out: &mut [f32]) {
    let d = f16_to_f32(u16::from_le_bytes([block[0], block[1]]));
    let dmin = f16_to_f32(u16::from_le_bytes([block[2], block[3]]));
    let mut scales = [0u8; 12];
    scales.copy_from_slice(&block[4..16]);
    let qh = &block[16..48];
    let qs = &block[48..BLOCK_BYTES];
    let mut is = 0usize;
    let mut q_off = 0usize;
    for y in (0..BLOCK_NUMEL).step_by(64) {
        let (sc1, m1) = get_scale_min_k4(is, &scales);
        let (sc2, m2) = get_scale_min_k4(is + 1, &scales);
        let d1 = d * sc1 as f32;
        let m1f = dmin * m1 as f32;
        let d2 = d * sc2 as f32;
        let m2f = dmin * m2 as f32;
        let qsl = &qs[q_off..q_off + 32];
        let (lo, hi) = out[y..y + 64].split_at_mut(32);
        for ((o, &q), &h) in lo.iter_mut().zip(qsl.iter()).zip(qh.iter()) {
            *o = d1 * quant(q & 0x0F, h, is) as f32 - m1f;
        }
        for ((o, &q), &h) in hi.iter_mut().zip(qsl.iter()).zip(qh.iter()) {
            *o = d2 * quant(q >> 4, h, is + 1) as f32 - m2f;
        }
        q_off += 32;
        is += 2;
    }
}

pub fn dequantize_q5_k(q5k_data: &[u8]) -> Result<Vec<f32>> {
    whole_blocks(q5k_data)?;
    let n_blocks = q5k_data.len() / BLOCK_BYTES;
    let mut out = vec![0f32; n_blocks * BLOCK_NUMEL];
    for b in 0..n_blocks {
        let block = &q5k_data[b * BLOCK_BYTES..(b + 1) * BLOCK_BYTES];
        dequantize_block(block, &mut out[b * BLOCK_NUMEL..(b + 1) * BLOCK_NUMEL]);
    }
    Ok(out)
}

pub fn canonical_dot_q5k_fused(x: &[f32], w_q5k: &[u8], n: usize) -> Result<f32> {
    whole_blocks(w_q5k)?;
    if n == 0 {
        return Ok(0.0);
    }
    let mut lanes = [0.0f32; CANON_LANES];
    let mut buf = [0.0f32; BLOCK_NUMEL];
    let supers_per_chunk = CANON_CHUNK / BLOCK_NUMEL;
    let mut chunk_sums: Vec<f32> = Vec::new();
    for b in 0..w_q5k.len() / BLOCK_BYTES {
        let base = b * BLOCK_NUMEL;
        if base >= n {
            break;
        }
        dequantize_block(&w_q5k[b * BLOCK_BYTES..(b + 1) * BLOCK_BYTES], &mut buf);
        let avail = core::cmp::min(BLOCK_NUMEL, n - base);
        add_to_lanes(&x[base..base + avail], &buf[..avail], &mut lanes);
        let is_last = base + avail >= n;
        if (b + 1) % supers_per_chunk == 0 || is_last {
            chunk_sums.push(canonical_combine(&mut lanes));
            lanes = [0.0f32; CANON_LANES];
        }
    }
    Ok(canonical_combine(&mut chunk_sums))
}

#[inline]
fn add_to_lanes(xs: &[f32], bs: &[f32], lanes: &mut [f32; CANON_LANES]) {
    for (xc, bc) in xs
        .chunks_exact(CANON_LANES)
        .zip(bs.chunks_exact(CANON_LANES))
    {
        for j in 0..CANON_LANES {
            let p = xc[j] * bc[j];
            lanes[j] += p;
        }
    }
    for t in xs.len() - xs.len() % CANON_LANES..xs.len() {
        let p = xs[t] * bs[t];
        lanes[t % CANON_LANES] += p;
    }
}

/// The products of 32 bytes of nibbles, with the fifth bits of their two sub-blocks, and the quants
/// of these.
#[inline]
fn dot32_pair(qsl: &[u8], qh: &[u8], is: usize, xlo: &[i8], xhi: &[i8]) -> (i32, i32) {
    let mut s_lo: i32 = 0;
    let mut s_hi: i32 = 0;
    for (((&q, &h), &xl), &xh) in qsl.iter().zip(qh).zip(xlo).zip(xhi) {
        s_lo += quant(q & 0x0F, h, is) as i32 * xl as i32;
        s_hi += quant(q >> 4, h, is + 1) as i32 * xh as i32;
    }
    (s_lo, s_hi)
}

#[inline]
pub fn dot_q5k_q8_block(w: &[u8], xq: &Q8Block, n: usize) -> f32 {
    let d = f16_to_f32(u16::from_le_bytes([w[0], w[1]]));
    let dmin = f16_to_f32(u16::from_le_bytes([w[2], w[3]]));
    let mut scales = [0u8; 12];
    scales.copy_from_slice(&w[4..16]);
    let qh = &w[16..48];
    let qs = &w[48..BLOCK_BYTES];
    let mut acc: i32 = 0;
    let mut acc_m: i32 = 0;
    for half in 0..4 {
        let is = half * 2;
        let (sc_lo, m_lo) = get_scale_min_k4(is, &scales);
        let (sc_hi, m_hi) = get_scale_min_k4(is + 1, &scales);
        let qsl = &qs[half * 32..half * 32 + 32];
        let base = half * 64;
        let (mut s_lo, mut s_hi) = (0i32, 0i32);
        if base + 64 <= n {
            let (xlo, xhi) = xq.qs[base..base + 64].split_at(32);
            (s_lo, s_hi) = dot32_pair(qsl, qh, is, xlo, xhi);
        } else {
            for l in 0..32 {
                if base + l < n {
                    s_lo += quant(qsl[l] & 0x0F, qh[l], is) as i32 * xq.qs[base + l] as i32;
                }
                if base + 32 + l < n {
                    s_hi += quant(qsl[l] >> 4, qh[l], is + 1) as i32 * xq.qs[base + 32 + l] as i32;
                }
            }
        }
        acc += sc_lo as i32 * s_lo + sc_hi as i32 * s_hi;
        acc_m += m_lo as i32 * xq.bsums[is] + m_hi as i32 * xq.bsums[is + 1];
    }
    d * xq.d * acc as f32 - dmin * xq.d * acc_m as f32
}

pub fn integer_dot_q5k(x: &[f32], w_q5k: &[u8], n: usize) -> Result<f32> {
    whole_blocks(w_q5k)?;
    if n == 0 {
        return Ok(0.0);
    }
    let n_super = w_q5k.len() / BLOCK_BYTES;
    let mut parts: Vec<f32> = Vec::with_capacity(n_super);
    for b in 0..n_super {
        let base = b * BLOCK_NUMEL;
        if base >= n {
            break;
        }
        let avail = core::cmp::min(BLOCK_NUMEL, n - base);
        let xq = quantize_block_q8(&x[base..base + avail]);
        let block = &w_q5k[b * BLOCK_BYTES..(b + 1) * BLOCK_BYTES];
        parts.push(dot_q5k_q8_block(block, &xq, avail));
    }
    Ok(canonical_combine(&mut parts))
}

pub fn linear_q5_k_fused(
    x: &[f32],
    w_q5k: &[u8],
    y_out: &mut [f32],
    batch: usize,
    in_feat: usize,
    out_feat: usize,
) -> Result<()> {
    let row_bytes = row_bytes(w_q5k, in_feat, out_feat)?;
    for b in 0..batch {
        let x_row = &x[b * in_feat..(b + 1) * in_feat];
        for o in 0..out_feat {
            let w_row = &w_q5k[o * row_bytes..(o + 1) * row_bytes];
            y_out[b * out_feat + o] = canonical_dot_q5k_fused(x_row, w_row, in_feat)?;
        }
    }
    Ok(())
}

pub fn linear_q5_k_integer(
    x: &[f32],
    w_q5k: &[u8],
    y_out: &mut [f32],
    batch: usize,
    in_feat: usize,
    out_feat: usize,
) -> Result<()> {
    let row_bytes = row_bytes(w_q5k, in_feat, out_feat)?;
    for b in 0..batch {
        let xq = quantized(&x[b * in_feat..(b + 1) * in_feat]);
        let mut parts: Vec<f32> = Vec::with_capacity(xq.len());
        for o in 0..out_feat {
            let w_row = &w_q5k[o * row_bytes..(o + 1) * row_bytes];
            parts.clear();
            for (s, xq) in xq.iter().enumerate() {
                let block = &w_row[s * BLOCK_BYTES..(s + 1) * BLOCK_BYTES];
                parts.push(dot_q5k_q8_block(block, xq, BLOCK_NUMEL));
            }
            y_out[b * out_feat + o] = canonical_combine(&mut parts);
        }
    }
    Ok(())
}

pub fn linear_q5_k_integer_rs(
    x: &[f32],
    w_q5k: &[u8],
    y_out: &mut [f32],
    batch: usize,
    in_feat: usize,
    out_feat: usize,
) -> Result<()> {
    let row_bytes = row_bytes(w_q5k, in_feat, out_feat)?;
    for b in 0..batch {
        let xq = quantized(&x[b * in_feat..(b + 1) * in_feat]);
        for o in 0..out_feat {
            let w_row = &w_q5k[o * row_bytes..(o + 1) * row_bytes];
            let mut sum = 0.0f32;
            for (s, xq) in xq.iter().enumerate() {
                let block = &w_row[s * BLOCK_BYTES..(s + 1) * BLOCK_BYTES];
                sum += dot_q5k_q8_block(block, xq, BLOCK_NUMEL);
            }
            y_out[b * out_feat + o] = sum;
        }
    }
    Ok(())
}

fn quantized(x_row: &[f32]) -> Vec<Q8Block> {
    let blocks = x_row.chunks_exact(BLOCK_NUMEL);
    blocks.map(quantize_block_q8).collect()
}

fn whole_blocks(bytes: &[u8]) -> Result<()> {
    if bytes.len() % BLOCK_BYTES != 0 {
        return Err(Error::Internal("Q5_K byte length not a multiple of 176"));
    }
    Ok(())
}

fn row_bytes(w_q5k: &[u8], in_feat: usize, out_feat: usize) -> Result<usize> {
    if in_feat % BLOCK_NUMEL != 0 {
        return Err(Error::Internal("Q5_K: in_feat not a multiple of 256"));
    }
    let row_bytes = (in_feat / BLOCK_NUMEL) * BLOCK_BYTES;
    if w_q5k.len() < out_feat * row_bytes {
        return Err(Error::Internal("Q5_K: weight shape mismatch"));
    }
    Ok(row_bytes)
}

/// What stands beside ours has to answer as ours does: otherwise its time says nothing.
#[cfg(test)]
mod tests {
    use super::*;
    use crate::fixed_order_sums::readings;
    use jambharrow as ours;
    use oracle::inputs::{trained_scale, Q5_K};
    use oracle::random::Random;

    const IN_FEAT: usize = 8_448;
    const OUT_FEAT: usize = 3;

    /// Two rows of readings, and the weights of a layer.
    fn input() -> (Vec<f32>, Vec<u8>) {
        let mut random = Random::new(5);
        let x = readings(&mut random, 2 * IN_FEAT);
        let blocks = OUT_FEAT * IN_FEAT / BLOCK_NUMEL;
        (x, Q5_K.blocks(&mut random, blocks, trained_scale))
    }

    #[test]
    fn decoded_values_are_the_same() {
        let (_, w) = input();
        let mut out = vec![0.0; OUT_FEAT * IN_FEAT];
        assert_eq!(ours::dequantize_q5_k(&w, &mut out), Ok(()));
        assert_eq!(dequantize_q5_k(&w), Ok(out));
    }

    #[test]
    fn dots_are_the_same() {
        let (x, w) = input();
        for n in [1, 31, 100, 256, 257, 8_192, 8_193] {
            let fused = canonical_dot_q5k_fused(&x, &w, n).expect("whole blocks");
            assert_eq!(Ok(fused), ours::canonical_dot_q5k_fused(&x, &w, n));
            let integer = integer_dot_q5k(&x, &w, n).expect("whole blocks");
            assert_eq!(Ok(integer), ours::integer_dot_q5k(&x, &w, n));
            let places = n.min(256);
            let Q8Block { d, qs, bsums } = quantize_block_q8(&x[..places]);
            let block = dot_q5k_q8_block(&w, &Q8Block { d, qs, bsums }, n);
            let our_block = ours::Q8Block::from_parts(d, qs, bsums, places);
            assert_eq!(Ok(block), ours::dot_q5k_q8_block(&w, &our_block, n));
        }
    }

    /// Readings, packed bytes, the output, batch, in_feat and out_feat.
    type Linear<E> =
        fn(&[f32], &[u8], &mut [f32], usize, usize, usize) -> core::result::Result<(), E>;

    #[test]
    fn layers_are_the_same() {
        let layers: [(Linear<Error>, Linear<ours::Refusal>); 3] = [
            (linear_q5_k_fused, ours::linear_q5_k_fused),
            (linear_q5_k_integer, ours::linear_q5_k_integer),
            (linear_q5_k_integer_rs, ours::linear_q5_k_integer_rs),
        ];
        let (x, w) = input();
        for (theirs, ours) in layers {
            let mut y = [[0.0; 2 * OUT_FEAT]; 2];
            assert_eq!(theirs(&x, &w, &mut y[0], 2, IN_FEAT, OUT_FEAT), Ok(()));
            assert_eq!(ours(&x, &w, &mut y[1], 2, IN_FEAT, OUT_FEAT), Ok(()));
            assert_eq!(y[0], y[1]);
            assert!(y[0].iter().all(|output| output.is_normal()));
        }
    }
}
