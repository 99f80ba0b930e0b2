//! Q4_0 in GGML's order, which the Rust does not have: a reference by the layout that GGML publishes,
//! block_q4_0. The fixed order of a layer's sums and the widening of a half are the Rust's, and so are
//! the scales and nibbles of a quantised block, which document 02 asks for; where a nibble goes is
//! said here.
use oracle::error::{Error, Result};
use oracle::ops::quant;

/// The bytes and the values of a block, the bytes of its scale, and how far apart the two values of a
/// byte are.
const BYTES: usize = 18;
const VALUES: usize = 32;
const SCALE: usize = 2;
const APART: usize = 16;

/// Packed blocks as floats, as GGML's dequantize_row_q4_0 goes over them: a byte has a value in the
/// first half of its block, and one at the same place of the second half.
pub fn dequantize(bytes: &[u8]) -> Result<Vec<f32>> {
    whole_blocks(bytes)?;
    let mut y = vec![0.0; bytes.len() / BYTES * VALUES];
    for (block, y) in bytes.chunks_exact(BYTES).zip(y.chunks_exact_mut(VALUES)) {
        let (scale, qs) = block.split_at(SCALE);
        let d = quant::reach::f16_to_f32(u16::from_le_bytes([scale[0], scale[1]]));
        for (j, q) in qs.iter().enumerate() {
            let (x0, x1) = (i32::from(q & 0x0F) - 8, i32::from(q >> 4) - 8);
            y[j] = x0 as f32 * d;
            y[j + APART] = x1 as f32 * d;
        }
    }
    Ok(y)
}

/// A layer of row dots over decoded weights.
pub fn linear_cpu(
    x: &[f32],
    w: &[u8],
    y: &mut [f32],
    batch: usize,
    in_feat: usize,
    out_feat: usize,
) -> Result<()> {
    if in_feat % VALUES != 0 {
        return Err(Error::Internal("Q4_0: in_feat not a multiple of 32"));
    }
    let given = [w.len(), x.len(), y.len()];
    let blocks = out_feat * (in_feat / VALUES);
    if given != [blocks * BYTES, batch * in_feat, batch * out_feat] {
        return Err(Error::Internal("Q4_0: a length is not that of the layer"));
    }
    let weights = dequantize(w)?;
    for (place, y) in y.iter_mut().enumerate() {
        let (b, o) = (place / out_feat, place % out_feat);
        let x = &x[b * in_feat..][..in_feat];
        let row = &weights[o * in_feat..][..in_feat];
        *y = quant::canonical_dot_pub(x, row, in_feat);
    }
    Ok(())
}

/// The Rust's blocks of these readings, in GGML's order.
pub fn quantize(data: &[f32]) -> Result<Vec<u8>> {
    of_paired(&quant::quantize_q4_0(data)?)
}

/// Which two values the low and the high nibble of a byte are.
type Order = fn(usize) -> [usize; 2];

const PAIRED: Order = |byte| [2 * byte, 2 * byte + 1];
const GGML: Order = |byte| [byte, byte + APART];

/// Blocks in which neighbours share a byte, in GGML's order.
pub fn of_paired(bytes: &[u8]) -> Result<Vec<u8>> {
    rearranged(bytes, PAIRED, GGML)
}

/// Blocks in GGML's order, with neighbours in a byte.
pub fn to_paired(bytes: &[u8]) -> Result<Vec<u8>> {
    rearranged(bytes, GGML, PAIRED)
}

/// The blocks by another order: the nibbles of a block are unpacked, one to a value, and packed
/// again. The bytes of its scale stay.
fn rearranged(bytes: &[u8], from: Order, to: Order) -> Result<Vec<u8>> {
    whole_blocks(bytes)?;
    let mut all = Vec::with_capacity(bytes.len());
    for block in bytes.chunks_exact(BYTES) {
        let (scale, qs) = block.split_at(SCALE);
        let mut nibbles = [0; VALUES];
        for (byte, q) in qs.iter().enumerate() {
            let [low, high] = from(byte);
            nibbles[low] = q % 16;
            nibbles[high] = q / 16;
        }
        all.extend(scale);
        all.extend((0..qs.len()).map(|byte| {
            let [low, high] = to(byte).map(|value| nibbles[value]);
            low + 16 * high
        }));
    }
    Ok(all)
}

fn whole_blocks(bytes: &[u8]) -> Result<()> {
    match bytes.len() % BYTES {
        0 => Ok(()),
        _ => Err(Error::Internal("Q4_0: byte length not a multiple of 18")),
    }
}

#[cfg(test)]
mod tests {
    use super::*;
    use oracle::inputs::{trained_scale, Q4_0};
    use oracle::random::Random;

    /// Document 02: low nibbles are the values 0 to 15, and high nibbles 16 to 31.
    #[test]
    fn values_are_at_the_places_of_document_02() {
        // The scale is -2, and byte j has the nibbles j and 15 - j.
        let mut block = [0; BYTES];
        block[..2].copy_from_slice(&[0x00, 0xC0]);
        for j in 0..16 {
            block[2 + j as usize] = j | (15 - j) << 4;
        }
        let values = dequantize(&block).expect("a whole block");
        let low = (0..16).map(|j| -2.0 * (j as f32 - 8.0));
        let high = (0..16).map(|j| -2.0 * (7.0 - j as f32));
        assert_eq!(values, low.chain(high).collect::<Vec<f32>>());
    }

    #[test]
    fn rearranged_blocks_have_the_values_that_the_rust_decodes() {
        let mut random = Random::new(18);
        let paired = Q4_0.blocks(&mut random, 64, trained_scale);
        let ggml = of_paired(&paired).expect("whole blocks");
        assert_ne!(ggml, paired);
        assert_eq!(dequantize(&ggml), quant::dequantize_q4_0(&paired));
        assert_eq!(to_paired(&ggml), Ok(paired));
    }

    #[test]
    fn a_scale_stays_and_nibbles_move_by_hand() {
        let mut paired = [0; BYTES];
        // The second value, which is high in its byte, becomes the low one of the next byte.
        paired[..3].copy_from_slice(&[0xAB, 0xCD, 0xF0]);
        let mut wanted = [0; BYTES];
        wanted[..4].copy_from_slice(&[0xAB, 0xCD, 0x00, 0x0F]);
        assert_eq!(of_paired(&paired), Ok(wanted.into()));
        assert_eq!(to_paired(&wanted), Ok(paired.into()));
    }

    #[test]
    fn a_layer_refuses_any_other_length() {
        let ask = |in_feat, [x, w, y]: [usize; 3]| {
            let mut out = vec![7.0; y];
            linear_cpu(&vec![1.0; x], &vec![0; w], &mut out, 2, in_feat, 3)
        };
        assert!(ask(32, [64, 54, 6]).is_ok());
        assert!(ask(31, [62, 54, 6]).is_err());
        for lengths in [
            [63, 54, 6],
            [64, 53, 6],
            [64, 72, 6],
            [64, 54, 5],
            [64, 54, 7],
        ] {
            assert!(ask(32, lengths).is_err());
        }
    }
}
