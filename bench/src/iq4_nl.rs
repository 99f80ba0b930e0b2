//! Ours, and no part of vitni-tensor: it stands for what the Rust does not have, IQ4_NL, as plain
//! loops, so that ours is measured beside such code. The search for the nearest value halves the
//! table, as GGML's does.
use crate::decoded_first::{linear_cpu, Layer};
use oracle::error::{Error, Result};
use oracle::ops::quant::reach::f16_to_f32;

const BLOCK_BYTES: usize = 18;
const BLOCK_NUMEL: usize = 32;

const VALUES: [i8; 16] = [
    -127, -104, -83, -65, -49, -35, -22, -10, 1, 13, 25, 38, 53, 69, 89, 113,
];

pub fn dequantize_iq4_nl(iq4_data: &[u8]) -> Result<Vec<f32>> {
    if iq4_data.len() % BLOCK_BYTES != 0 {
        return Err(Error::Internal("IQ4_NL byte length not a multiple of 18"));
    }
    let n_blocks = iq4_data.len() / BLOCK_BYTES;
    let mut out = vec![0f32; n_blocks * BLOCK_NUMEL];
    for b in 0..n_blocks {
        let off = b * BLOCK_BYTES;
        let scale = f16_to_f32(u16::from_le_bytes([iq4_data[off], iq4_data[off + 1]]));
        let qs = &iq4_data[off + 2..off + BLOCK_BYTES];
        let out_off = b * BLOCK_NUMEL;
        for k in 0..16 {
            let byte = qs[k];
            out[out_off + k] = scale * VALUES[(byte & 0x0F) as usize] as f32;
            out[out_off + k + 16] = scale * VALUES[(byte >> 4) as usize] as f32;
        }
    }
    Ok(out)
}

fn nearest(q: i32) -> u8 {
    let (mut low, mut high) = (0, VALUES.len() - 1);
    if q >= VALUES[high] as i32 {
        return high as u8;
    }
    while high - low > 1 {
        let middle = (low + high) / 2;
        if q < VALUES[middle] as i32 {
            high = middle;
        } else {
            low = middle;
        }
    }
    if q - VALUES[low] as i32 <= VALUES[high] as i32 - q {
        low as u8
    } else {
        high as u8
    }
}

pub fn quantize_iq4_nl(data: &[f32], scale: u16) -> Result<Vec<u8>> {
    if data.len() % BLOCK_NUMEL != 0 {
        return Err(Error::Internal("IQ4_NL: input not a multiple of 32"));
    }
    let d = f16_to_f32(scale);
    let inv_scale = if d != 0.0 { 1.0 / d } else { 0.0 };
    let quant = |v: f32| {
        let x = v * inv_scale;
        let q = if x >= 0.0 { x + 0.5 } else { x - 0.5 };
        nearest((q as i32).clamp(-127, 127))
    };
    let n_blocks = data.len() / BLOCK_NUMEL;
    let mut out = vec![0u8; n_blocks * BLOCK_BYTES];
    for b in 0..n_blocks {
        let block = &data[b * BLOCK_NUMEL..(b + 1) * BLOCK_NUMEL];
        let off = b * BLOCK_BYTES;
        out[off..off + 2].copy_from_slice(&scale.to_le_bytes());
        for k in 0..16 {
            out[off + 2 + k] = quant(block[k]) | (quant(block[k + 16]) << 4);
        }
    }
    Ok(out)
}

pub fn linear_iq4_nl_cpu(
    x: &[f32],
    w: &[u8],
    y_out: &mut [f32],
    batch: usize,
    in_feat: usize,
    out_feat: usize,
) -> Result<()> {
    let layer = Layer {
        x,
        w,
        batch,
        in_feat,
        out_feat,
    };
    linear_cpu(dequantize_iq4_nl, layer, y_out)
}

/// What stands beside ours has to answer as ours does: otherwise its time says nothing.
#[cfg(test)]
mod tests {
    use super::*;
    use crate::fixed_order_sums::readings;
    use jambharrow as ours;
    use oracle::inputs::{trained_scale, IQ4_NL};
    use oracle::random::Random;

    const IN_FEAT: usize = 8_224;
    const OUT_FEAT: usize = 3;

    /// Two rows of readings, and the weights of a layer.
    fn input() -> (Vec<f32>, Vec<u8>) {
        let mut random = Random::new(4);
        let x = readings(&mut random, 2 * IN_FEAT);
        let blocks = OUT_FEAT * IN_FEAT / BLOCK_NUMEL;
        (x, IQ4_NL.blocks(&mut random, blocks, trained_scale))
    }

    #[test]
    fn decoded_values_are_the_same() {
        let (_, w) = input();
        let mut out = vec![0.0; OUT_FEAT * IN_FEAT];
        assert_eq!(ours::dequantize_iq4_nl(&w, &mut out), Ok(()));
        assert_eq!(dequantize_iq4_nl(&w), Ok(out));
    }

    #[test]
    fn bytes_are_the_same() {
        let (x, _) = input();
        let integers: Vec<f32> = (-128..128).map(|integer| integer as f32).collect();
        for (data, scale) in [(x, 0x3400), (integers, 0x3C00)] {
            let mut out = vec![0; data.len() / BLOCK_NUMEL * BLOCK_BYTES];
            assert_eq!(ours::quantize_iq4_nl(&data, scale, &mut out), Ok(()));
            assert_eq!(quantize_iq4_nl(&data, scale), Ok(out));
        }
    }

    #[test]
    fn layers_are_the_same() {
        let (x, w) = input();
        let mut y = [[0.0; 2 * OUT_FEAT]; 2];
        let theirs = linear_iq4_nl_cpu(&x, &w, &mut y[0], 2, IN_FEAT, OUT_FEAT);
        assert_eq!(theirs, Ok(()));
        let scratch = &mut [0.0; IN_FEAT];
        let ours = ours::linear_iq4_nl_cpu(&x, &w, &mut y[1], scratch, 2, IN_FEAT, OUT_FEAT);
        assert_eq!(ours, Ok(()));
        assert_eq!(y[0], y[1]);
        assert!(y[0].iter().all(|output| output.is_normal()));
    }
}
