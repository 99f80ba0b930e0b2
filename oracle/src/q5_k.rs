//! Q5_K, which the Rust does not have: a reference by the layout that GGML publishes, block_q5_K. The
//! dots and layers have Q4_K's formulas in whole numbers of 64 bits; the fixed order of their sums,
//! the activation blocks and the widening of a half are the Rust's.
use oracle::error::{Error, Result};
use oracle::ops::quant::{self, Q8Block};

/// The bytes and the values of a block, and the values of a sub-block.
const BYTES: usize = 176;
const VALUES: usize = 256;
const SUB_BLOCK: usize = 32;

/// A block's fields, in the order in which they stand.
struct Block<'a> {
    d: f32,
    dmin: f32,
    scales: &'a [u8],
    qh: &'a [u8],
    qs: &'a [u8],
}

impl<'a> Block<'a> {
    /// The block at the front of bytes.
    fn of(bytes: &'a [u8]) -> Block<'a> {
        let half = |at: usize| u16::from_le_bytes([bytes[at], bytes[at + 1]]);
        Block {
            d: quant::reach::f16_to_f32(half(0)),
            dmin: quant::reach::f16_to_f32(half(2)),
            scales: &bytes[4..16],
            qh: &bytes[16..48],
            qs: &bytes[48..BYTES],
        }
    }

    /// The scale and the minimum of a sub-block, of six bits each, as GGML's get_scale_min_k4 has
    /// them.
    fn scale_and_minimum(&self, sub_block: usize) -> (u8, u8) {
        let bytes = self.scales;
        match sub_block {
            0..4 => (bytes[sub_block] & 63, bytes[sub_block + 4] & 63),
            _ => {
                let low = bytes[sub_block + 4];
                let (scale, minimum) = (bytes[sub_block - 4] >> 6, bytes[sub_block] >> 6);
                (low & 15 | scale << 4, low >> 4 | minimum << 4)
            }
        }
    }

    /// The whole numbers, 64 at a time, as GGML's dequantize_row_q5_K goes over them: 32 low nibbles
    /// with the fifth bits of one mask, and the high nibbles of the same bytes with those of the
    /// next; then both masks move on by two bits.
    fn whole_numbers(&self) -> Vec<u8> {
        let mut all = Vec::with_capacity(VALUES);
        let (mut u1, mut u2) = (1u8, 2u8);
        for ql in self.qs.chunks_exact(SUB_BLOCK) {
            let fifth = |l: usize, mask| if self.qh[l] & mask != 0 { 16 } else { 0 };
            all.extend((0..SUB_BLOCK).map(|l| (ql[l] & 15) + fifth(l, u1)));
            all.extend((0..SUB_BLOCK).map(|l| (ql[l] >> 4) + fifth(l, u2)));
            u1 <<= 2;
            u2 <<= 2;
        }
        all
    }

    fn values(&self) -> Vec<f32> {
        let mut values = Vec::with_capacity(VALUES);
        for (j, quants) in self.whole_numbers().chunks_exact(SUB_BLOCK).enumerate() {
            let (scale, minimum) = self.scale_and_minimum(j);
            let (scale, minimum) = (self.d * f32::from(scale), self.dmin * f32::from(minimum));
            values.extend(quants.iter().map(|&q| scale * f32::from(q) - minimum));
        }
        values
    }
}

/// Packed blocks as floats.
pub fn dequantize(bytes: &[u8]) -> Result<Vec<f32>> {
    whole_blocks(bytes)?;
    let blocks = bytes.chunks_exact(BYTES);
    Ok(blocks.flat_map(|block| Block::of(block).values()).collect())
}

/// The dot of a row in the fixed order, over its decoded weights.
pub fn fused_row_dot(x: &[f32], w: &[u8], n: usize) -> Result<f32> {
    whole_blocks(w)?;
    needs_blocks(w, n.div_ceil(VALUES))?;
    let weights = dequantize(&w[..n.div_ceil(VALUES) * BYTES])?;
    Ok(quant::canonical_dot_pub(x, &weights, n))
}

/// The dot of a block and an activation block: (d * dx) * A - (dmin * dx) * M, where A has the places
/// below n, and M all eight sums.
pub fn block_dot(w: &[u8], xq: &Q8Block, n: usize) -> f32 {
    let block = Block::of(w);
    let (mut a, mut m) = (0i64, 0i64);
    for (j, quants) in block.whole_numbers().chunks_exact(SUB_BLOCK).enumerate() {
        let (scale, minimum) = block.scale_and_minimum(j);
        let places = (j * SUB_BLOCK..n).zip(quants);
        let products = places.map(|(place, &q)| i64::from(q) * i64::from(xq.qs[place]));
        a += i64::from(scale) * products.sum::<i64>();
        m += i64::from(minimum) * i64::from(xq.bsums[j]);
    }
    (block.d * xq.d) * a as f32 - (block.dmin * xq.d) * m as f32
}

/// The integer dot of a row: those of its blocks, met in the tree.
pub fn integer_row_dot(x: &[f32], w: &[u8], n: usize) -> Result<f32> {
    whole_blocks(w)?;
    needs_blocks(w, n.div_ceil(VALUES))?;
    let dot = |(w, x): (&[u8], &[f32])| block_dot(w, &quant::quantize_block_q8(x), x.len());
    let pairs = w.chunks_exact(BYTES).zip(x[..n].chunks(VALUES));
    Ok(quant::canonical_combine(
        &mut pairs.map(dot).collect::<Vec<_>>(),
    ))
}

/// A layer of fused row dots.
pub fn linear_fused(
    x: &[f32],
    w: &[u8],
    y: &mut [f32],
    batch: usize,
    in_feat: usize,
    out_feat: usize,
) -> Result<()> {
    let w = layer_weights(w, in_feat, out_feat)?;
    let weights = dequantize(w)?;
    for b in 0..batch {
        let x = &x[b * in_feat..][..in_feat];
        for o in 0..out_feat {
            let row = &weights[o * in_feat..][..in_feat];
            y[b * out_feat + o] = quant::canonical_dot_pub(x, row, in_feat);
        }
    }
    Ok(())
}

/// A layer of integer dots whose blocks meet in the tree.
pub fn linear_integer(
    x: &[f32],
    w: &[u8],
    y: &mut [f32],
    batch: usize,
    in_feat: usize,
    out_feat: usize,
) -> Result<()> {
    let tree = |mut dots: Vec<f32>| quant::canonical_combine(&mut dots);
    linear_of_blocks(x, w, y, [batch, in_feat, out_feat], tree)
}

/// The same in a running sum from +0.0.
pub fn linear_integer_rs(
    x: &[f32],
    w: &[u8],
    y: &mut [f32],
    batch: usize,
    in_feat: usize,
    out_feat: usize,
) -> Result<()> {
    let running_sum = |dots: Vec<f32>| dots.into_iter().fold(0.0, |sum, dot| sum + dot);
    linear_of_blocks(x, w, y, [batch, in_feat, out_feat], running_sum)
}

fn linear_of_blocks(
    x: &[f32],
    w: &[u8],
    y: &mut [f32],
    [batch, in_feat, out_feat]: [usize; 3],
    meet: impl Fn(Vec<f32>) -> f32,
) -> Result<()> {
    let w = layer_weights(w, in_feat, out_feat)?;
    for b in 0..batch {
        let x = x[b * in_feat..][..in_feat].chunks_exact(VALUES);
        let x: Vec<Q8Block> = x.map(quant::quantize_block_q8).collect();
        for o in 0..out_feat {
            let row = &w[o * x.len() * BYTES..][..x.len() * BYTES];
            let pairs = row.chunks_exact(BYTES).zip(&x);
            let dots = pairs.map(|(w, x)| block_dot(w, x, VALUES)).collect();
            y[b * out_feat + o] = meet(dots);
        }
    }
    Ok(())
}

/// The bytes of a layer's weights, of those given.
fn layer_weights(w: &[u8], in_feat: usize, out_feat: usize) -> Result<&[u8]> {
    if in_feat % VALUES != 0 {
        return Err(Error::Internal("Q5_K: in_feat not a multiple of 256"));
    }
    let blocks = out_feat * (in_feat / VALUES);
    needs_blocks(w, blocks)?;
    Ok(&w[..blocks * BYTES])
}

fn whole_blocks(bytes: &[u8]) -> Result<()> {
    match bytes.len() % BYTES {
        0 => Ok(()),
        _ => Err(Error::Internal("Q5_K: byte length not a multiple of 176")),
    }
}

fn needs_blocks(bytes: &[u8], blocks: usize) -> Result<()> {
    match bytes.len() < blocks * BYTES {
        true => Err(Error::Internal("Q5_K: fewer blocks than needed")),
        false => Ok(()),
    }
}

#[cfg(test)]
mod tests {
    use super::*;
    use oracle::inputs::{trained_scale, Q5_K};
    use oracle::random::Random;

    /// Document 02: sub-block j takes its fifth bit for place l from bit j of byte l of the 32.
    #[test]
    fn whole_numbers_are_those_of_document_02() {
        let mut random = Random::new(5);
        for _ in 0..64 {
            let bytes = Q5_K.blocks(&mut random, 1, trained_scale);
            let found = Block::of(&bytes).whole_numbers();
            let wanted = (0..VALUES).map(|place| {
                let (j, l) = (place / SUB_BLOCK, place % SUB_BLOCK);
                let nibble = bytes[48 + 32 * (j / 2) + l] >> (4 * (j % 2)) & 15;
                nibble + 16 * (bytes[16 + l] >> j & 1)
            });
            assert_eq!(found, wanted.collect::<Vec<u8>>());
        }
    }

    /// A block whose d is 2, dmin -1, scales 1 to 8, minimums 9 to 16, and whole numbers all 17.
    fn by_hand() -> [u8; BYTES] {
        let mut block = [0; BYTES];
        block[..4].copy_from_slice(&[0x00, 0x40, 0x00, 0xBC]);
        block[4..12].copy_from_slice(&[1, 2, 3, 4, 9, 10, 11, 12 | 0x40]);
        block[12..16].copy_from_slice(&[0xD5, 0xE6, 0xF7, 0x08]);
        block[16..48].fill(0xFF);
        block[48..].fill(0x11);
        block
    }

    #[test]
    fn a_block_by_hand() {
        let values = dequantize(&by_hand()).expect("a whole block");
        for (j, values) in values.chunks_exact(SUB_BLOCK).enumerate() {
            let value = 34.0 * (j + 1) as f32 + (j + 9) as f32;
            assert_eq!(values, [value; SUB_BLOCK], "sub-block {j}");
        }
    }

    #[test]
    fn a_dot_counts_places_below_n_and_all_eight_sums() {
        let xq = quant::quantize_block_q8(&[127.0; VALUES]);
        let minimums = 32.0 * 127.0 * (9 + 10 + 11 + 12 + 13 + 14 + 15 + 16) as f32;
        let dot = |n| block_dot(&by_hand(), &xq, n);
        assert_eq!(dot(0), minimums);
        assert_eq!(dot(33), 34.0 * 127.0 * (32.0 + 2.0) + minimums);
        assert_eq!(dot(256), dot(1_000));
        assert_eq!(dot(256), 34.0 * 127.0 * 32.0 * 36.0 + minimums);
    }
}
