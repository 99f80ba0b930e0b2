//! Layers: every row of readings against every row of packed weights.
use crate::refusal::{counted, done, Refusal};
use crate::sys::{self, CpuLayer, Layer, Size};

/// `sizes` are batch, in_feat and out_feat.
#[inline]
fn linear(
    layer: Layer,
    x: &[f32],
    w: &[u8],
    y_out: &mut [f32],
    sizes: [usize; 3],
) -> Result<(), Refusal> {
    counted(|blocks| number(layer, x, w, y_out, sizes, blocks))
}

/// The number that the call returns.
#[inline]
fn number(
    layer: Layer,
    x: &[f32],
    w: &[u8],
    y_out: &mut [f32],
    sizes: [usize; 3],
    blocks: &mut [Size; 2],
) -> u32 {
    let [batch, in_feat, out_feat] = sizes.map(|size| size as Size);
    // SAFETY: each pointer and length is a slice's, and what is written is lent to this call alone.
    unsafe {
        layer(
            x.as_ptr(),
            x.len() as Size,
            w.as_ptr(),
            w.len() as Size,
            y_out.as_mut_ptr(),
            y_out.len() as Size,
            batch,
            in_feat,
            out_feat,
            blocks,
        )
    }
}

/// Works a layer of `batch` rows of `in_feat` readings and `out_feat` rows of `in_feat` weights in
/// Q4_K blocks: the output of reading row b and weight row o, at `b * out_feat + o`, is
/// [`canonical_dot_q4k_fused`](crate::canonical_dot_q4k_fused) of the two. Weights, readings and
/// places of `y_out` behind those that the sizes need are not looked at, and kept. It refuses, in
/// this order, as [`Refusal::TooLarge`] a `batch` over [`MOST_BATCH`](crate::MOST_BATCH), an
/// `in_feat` over [`MOST_IN`](crate::MOST_IN) or an `out_feat` over [`MOST_OUT`](crate::MOST_OUT);
/// as [`Refusal::NotAMultiple`] an `in_feat` that is not a multiple of 256; and as
/// [`Refusal::WeightsShort`], [`Refusal::ReadingsShort`] and [`Refusal::RoomShort`] fewer weights,
/// readings and places of `y_out` than the sizes need, weights also where `batch` is 0.
///
/// ```
/// // One block, whose first 32 weights are 1, and the others 0.
/// let mut w = [0; 144];
/// w[..2].copy_from_slice(&[0x00, 0x3C]);
/// w[4] = 1;
/// w[16..].fill(0x11);
/// let mut y = [0.0; 2];
/// jambharrow::linear_q4_k_fused(&[1.0; 512], &w, &mut y, 2, 256, 1)?;
/// assert_eq!(y, [32.0, 32.0]);
/// # Ok::<(), jambharrow::Refusal>(())
/// ```
#[inline]
pub fn linear_q4_k_fused(
    x: &[f32],
    w_q4k: &[u8],
    y_out: &mut [f32],
    batch: usize,
    in_feat: usize,
    out_feat: usize,
) -> Result<(), Refusal> {
    let sizes = [batch, in_feat, out_feat];
    linear(sys::jambharrow_linear_q4_k_fused, x, w_q4k, y_out, sizes)
}

/// Does with Q5_K blocks what [`linear_q4_k_fused`] does with its own, by
/// [`canonical_dot_q5k_fused`](crate::canonical_dot_q5k_fused).
///
/// ```
/// // One block, whose first 32 weights are 17, and the others 0: their fifth bits are set.
/// let mut w = [0; 176];
/// w[..2].copy_from_slice(&[0x00, 0x3C]);
/// w[4] = 1;
/// w[16..48].fill(0x01);
/// w[48..].fill(0x11);
/// let mut y = [0.0; 2];
/// jambharrow::linear_q5_k_fused(&[1.0; 512], &w, &mut y, 2, 256, 1)?;
/// assert_eq!(y, [544.0, 544.0]);
/// # Ok::<(), jambharrow::Refusal>(())
/// ```
#[inline]
pub fn linear_q5_k_fused(
    x: &[f32],
    w_q5k: &[u8],
    y_out: &mut [f32],
    batch: usize,
    in_feat: usize,
    out_feat: usize,
) -> Result<(), Refusal> {
    let sizes = [batch, in_feat, out_feat];
    linear(sys::jambharrow_linear_q5_k_fused, x, w_q5k, y_out, sizes)
}

/// Does with Q6_K blocks what [`linear_q4_k_fused`] does with its own, by
/// [`q6k_fused_f32_dot`](crate::q6k_fused_f32_dot).
#[inline]
pub fn linear_q6_k_fused(
    x: &[f32],
    w_q6k: &[u8],
    y_out: &mut [f32],
    batch: usize,
    in_feat: usize,
    out_feat: usize,
) -> Result<(), Refusal> {
    let sizes = [batch, in_feat, out_feat];
    linear(sys::jambharrow_linear_q6_k_fused, x, w_q6k, y_out, sizes)
}

/// Works a layer as [`linear_q4_k_fused`] does, and refuses as it does, but in whole numbers: each
/// row of readings is made activation blocks once, and an output is
/// [`integer_dot_q4k`](crate::integer_dot_q4k) of its two rows.
#[inline]
pub fn linear_q4_k_integer(
    x: &[f32],
    w_q4k: &[u8],
    y_out: &mut [f32],
    batch: usize,
    in_feat: usize,
    out_feat: usize,
) -> Result<(), Refusal> {
    let sizes = [batch, in_feat, out_feat];
    linear(sys::jambharrow_linear_q4_k_integer, x, w_q4k, y_out, sizes)
}

/// Does with Q5_K blocks what [`linear_q4_k_integer`] does with its own, by
/// [`integer_dot_q5k`](crate::integer_dot_q5k).
#[inline]
pub fn linear_q5_k_integer(
    x: &[f32],
    w_q5k: &[u8],
    y_out: &mut [f32],
    batch: usize,
    in_feat: usize,
    out_feat: usize,
) -> Result<(), Refusal> {
    let sizes = [batch, in_feat, out_feat];
    linear(sys::jambharrow_linear_q5_k_integer, x, w_q5k, y_out, sizes)
}

/// Does with Q6_K blocks what [`linear_q4_k_integer`] does with its own, by
/// [`dot_q6k_q8_block`](crate::dot_q6k_q8_block) of each block.
#[inline]
pub fn linear_q6_k_integer(
    x: &[f32],
    w_q6k: &[u8],
    y_out: &mut [f32],
    batch: usize,
    in_feat: usize,
    out_feat: usize,
) -> Result<(), Refusal> {
    let sizes = [batch, in_feat, out_feat];
    linear(sys::jambharrow_linear_q6_k_integer, x, w_q6k, y_out, sizes)
}

/// Does what [`linear_q4_k_integer`] does, but the dots of a row's blocks meet in a running sum from
/// +0.0, and not in the tree.
#[inline]
pub fn linear_q4_k_integer_rs(
    x: &[f32],
    w_q4k: &[u8],
    y_out: &mut [f32],
    batch: usize,
    in_feat: usize,
    out_feat: usize,
) -> Result<(), Refusal> {
    let sizes = [batch, in_feat, out_feat];
    linear(
        sys::jambharrow_linear_q4_k_integer_rs,
        x,
        w_q4k,
        y_out,
        sizes,
    )
}

/// Does with Q5_K blocks what [`linear_q4_k_integer_rs`] does with its own.
#[inline]
pub fn linear_q5_k_integer_rs(
    x: &[f32],
    w_q5k: &[u8],
    y_out: &mut [f32],
    batch: usize,
    in_feat: usize,
    out_feat: usize,
) -> Result<(), Refusal> {
    let sizes = [batch, in_feat, out_feat];
    linear(
        sys::jambharrow_linear_q5_k_integer_rs,
        x,
        w_q5k,
        y_out,
        sizes,
    )
}

/// Does with Q6_K blocks what [`linear_q4_k_integer_rs`] does with its own.
#[inline]
pub fn linear_q6_k_integer_rs(
    x: &[f32],
    w_q6k: &[u8],
    y_out: &mut [f32],
    batch: usize,
    in_feat: usize,
    out_feat: usize,
) -> Result<(), Refusal> {
    let sizes = [batch, in_feat, out_feat];
    linear(
        sys::jambharrow_linear_q6_k_integer_rs,
        x,
        w_q6k,
        y_out,
        sizes,
    )
}

/// `sizes` are batch, in_feat and out_feat.
#[inline]
fn linear_cpu(
    layer: CpuLayer,
    x: &[f32],
    w: &[u8],
    y_out: &mut [f32],
    scratch: &mut [f32],
    sizes: [usize; 3],
) -> Result<(), Refusal> {
    let [batch, in_feat, out_feat] = sizes.map(|size| size as Size);
    // SAFETY: each pointer and length is a slice's, and what is written is lent to this call alone.
    done(unsafe {
        layer(
            x.as_ptr(),
            x.len() as Size,
            w.as_ptr(),
            w.len() as Size,
            y_out.as_mut_ptr(),
            y_out.len() as Size,
            scratch.as_mut_ptr(),
            scratch.len() as Size,
            batch,
            in_feat,
            out_feat,
        )
    })
}

/// Works a layer as [`linear_q4_k_fused`] does, but decodes each row of weights into `scratch`, for
/// [`canonical_dot_pub`](crate::canonical_dot_pub) of it and every row of readings. Rows need not be
/// whole blocks: two rows of 128 share one. Afterwards the first `in_feat` places of `scratch` hold
/// the last row decoded, or what they held, where `batch` or `out_feat` is 0. It refuses, in this
/// order, as [`Refusal::TooLarge`] what [`linear_q4_k_fused`] refuses so; as
/// [`Refusal::ReadingsShort`] any other count of readings than `batch * in_feat`; as
/// [`Refusal::RoomShort`] a `y_out` of any other length than `batch * out_feat`; as
/// [`Refusal::NotWholeBlocks`] bytes that are not whole blocks; as [`Refusal::WeightsShort`] blocks
/// of fewer weights than `out_feat * in_feat`, and as [`Refusal::WeightsLong`] of more; and as
/// [`Refusal::RoomShort`] a `scratch` of fewer than `in_feat` places.
#[inline]
pub fn linear_q4_k_cpu(
    x: &[f32],
    w_q4k: &[u8],
    y_out: &mut [f32],
    scratch: &mut [f32],
    batch: usize,
    in_feat: usize,
    out_feat: usize,
) -> Result<(), Refusal> {
    let layer = sys::jambharrow_linear_q4_k_cpu;
    let sizes = [batch, in_feat, out_feat];
    linear_cpu(layer, x, w_q4k, y_out, scratch, sizes)
}

/// Does with Q6_K blocks what [`linear_q4_k_cpu`] does with its own.
#[inline]
pub fn linear_q6_k_cpu(
    x: &[f32],
    w_q6k: &[u8],
    y_out: &mut [f32],
    scratch: &mut [f32],
    batch: usize,
    in_feat: usize,
    out_feat: usize,
) -> Result<(), Refusal> {
    let layer = sys::jambharrow_linear_q6_k_cpu;
    let sizes = [batch, in_feat, out_feat];
    linear_cpu(layer, x, w_q6k, y_out, scratch, sizes)
}

/// Does with Q4_0 blocks, of which a row is a whole number, what [`linear_q4_k_cpu`] does with its
/// own. It refuses, in this order, as [`Refusal::TooLarge`] what [`linear_q4_k_fused`] refuses so; as
/// [`Refusal::NotAMultiple`] an `in_feat` that is not a multiple of 32; as
/// [`Refusal::WeightsShort`] fewer bytes than the sizes need, and as [`Refusal::WeightsLong`] more;
/// as [`Refusal::ReadingsShort`] and [`Refusal::RoomShort`] any other count of readings and of places
/// of `y_out` than they need; and as [`Refusal::RoomShort`] a `scratch` of fewer than `in_feat`
/// places.
#[inline]
pub fn linear_q4_0_cpu(
    x: &[f32],
    w_q4: &[u8],
    y_out: &mut [f32],
    scratch: &mut [f32],
    batch: usize,
    in_feat: usize,
    out_feat: usize,
) -> Result<(), Refusal> {
    let layer = sys::jambharrow_linear_q4_0_cpu;
    let sizes = [batch, in_feat, out_feat];
    linear_cpu(layer, x, w_q4, y_out, scratch, sizes)
}

/// Does with Q4_0 blocks in GGML's order what [`linear_q4_0_cpu`] does with its own.
#[inline]
pub fn linear_q4_0_ggml_cpu(
    x: &[f32],
    w_q4: &[u8],
    y_out: &mut [f32],
    scratch: &mut [f32],
    batch: usize,
    in_feat: usize,
    out_feat: usize,
) -> Result<(), Refusal> {
    let layer = sys::jambharrow_linear_q4_0_ggml_cpu;
    let sizes = [batch, in_feat, out_feat];
    linear_cpu(layer, x, w_q4, y_out, scratch, sizes)
}

/// Does with IQ4_NL blocks what [`linear_q4_0_cpu`] does with its own.
#[inline]
pub fn linear_iq4_nl_cpu(
    x: &[f32],
    w_iq4: &[u8],
    y_out: &mut [f32],
    scratch: &mut [f32],
    batch: usize,
    in_feat: usize,
    out_feat: usize,
) -> Result<(), Refusal> {
    let layer = sys::jambharrow_linear_iq4_nl_cpu;
    let sizes = [batch, in_feat, out_feat];
    linear_cpu(layer, x, w_iq4, y_out, scratch, sizes)
}

#[cfg(test)]
mod tests {
    use super::*;
    use crate::refusal::short;
    use crate::{MOST_BATCH, MOST_IN, MOST_OUT};

    /// A Q4_K block whose first 32 weights are as given, up to 15, and the others 0.
    fn q4_k(weight: u8) -> [u8; 144] {
        let mut block = [0; 144];
        block[..2].copy_from_slice(&[0x00, 0x3C]);
        block[4] = 1;
        block[16..48].fill(weight);
        block
    }

    /// A Q5_K block whose first 32 weights are 16 more than the one given, and the others 0.
    fn q5_k(weight: u8) -> [u8; 176] {
        let mut block = [0; 176];
        block[..16].copy_from_slice(&q4_k(weight)[..16]);
        block[16..48].fill(0x01);
        block[48..].copy_from_slice(&q4_k(weight)[16..]);
        block
    }

    /// A Q6_K block whose first 16 weights are 32 times the scale given, and the others 0: each
    /// quant is 0 - 32, and d is -1.
    fn q6_k(scale: u8) -> [u8; 210] {
        let mut block = [0; 210];
        block[192] = scale;
        block[209] = 0xBC;
        block
    }

    /// Two rows of 256 readings: of 1, and of 2.
    fn two_rows() -> Vec<f32> {
        [[1.0; 256], [2.0; 256]].concat()
    }

    #[test]
    fn outputs_are_row_major_and_surplus_places_are_kept() {
        let x = two_rows();
        let w = [q4_k(1), q4_k(2), q4_k(3)].concat();
        let wanted = [32.0, 64.0, 96.0, 64.0, 128.0, 192.0, 7.0];
        let mut y = [7.0; 7];
        assert_eq!(linear_q4_k_fused(&x, &w, &mut y, 2, 256, 3), Ok(()));
        assert_eq!(y, wanted);

        let w = [q5_k(1), q5_k(2), q5_k(3)].concat();
        let mut y = [7.0; 7];
        assert_eq!(linear_q5_k_fused(&x, &w, &mut y, 2, 256, 3), Ok(()));
        assert_eq!(y, [544.0, 576.0, 608.0, 1088.0, 1152.0, 1216.0, 7.0]);

        let w = [q6_k(1), q6_k(2), q6_k(3)].concat();
        let wanted = wanted.map(|wanted| if wanted == 7.0 { 7.0 } else { 16.0 * wanted });
        let mut y = [7.0; 7];
        assert_eq!(linear_q6_k_fused(&x, &w, &mut y, 2, 256, 3), Ok(()));
        assert_eq!(y, wanted);
    }

    #[test]
    fn layers_in_whole_numbers() {
        // The scale is 1, the quants are the readings, and no float rounds.
        let x = [[127.0; 256], [-127.0; 256]].concat();
        let w = [q4_k(1), q4_k(2), q4_k(3)].concat();
        let wanted = [4064.0, 8128.0, 12192.0, -4064.0, -8128.0, -12192.0, 7.0];
        let layers: [Plain; 2] = [linear_q4_k_integer, linear_q4_k_integer_rs];
        for layer in layers {
            let mut y = [7.0; 7];
            assert_eq!(layer(&x, &w, &mut y, 2, 256, 3), Ok(()));
            assert_eq!(y, wanted);
        }
        let w = [q5_k(1), q5_k(2), q5_k(3)].concat();
        let layers: [Plain; 2] = [linear_q5_k_integer, linear_q5_k_integer_rs];
        for layer in layers {
            let mut y = [7.0; 7];
            assert_eq!(layer(&x, &w, &mut y, 2, 256, 3), Ok(()));
            let first = [17.0, 18.0, 19.0].map(|weight| 4064.0 * weight);
            assert_eq!(y[..3], first);
            assert_eq!(y[3..6], first.map(|output| -output));
            assert_eq!(y[6], 7.0);
        }
        let w = [q6_k(1), q6_k(2), q6_k(3)].concat();
        let wanted = wanted.map(|wanted| if wanted == 7.0 { 7.0 } else { 16.0 * wanted });
        let layers: [Plain; 2] = [linear_q6_k_integer, linear_q6_k_integer_rs];
        for layer in layers {
            let mut y = [7.0; 7];
            assert_eq!(layer(&x, &w, &mut y, 2, 256, 3), Ok(()));
            assert_eq!(y, wanted);
        }
    }

    #[test]
    fn the_tree_keeps_a_minus_nought_and_a_running_sum_does_not() {
        // d is -1, dmin 1, and the rest 0, as many bytes as a block of either format has.
        let mut w = [0; 176];
        w[..4].copy_from_slice(&[0x00, 0xBC, 0x00, 0x3C]);
        let x = [0.0; 256];
        let layers: [[Plain; 2]; 2] = [
            [linear_q4_k_integer, linear_q4_k_integer_rs],
            [linear_q5_k_integer, linear_q5_k_integer_rs],
        ];
        for [tree, running_sum] in layers {
            let mut y = [7.0];
            assert_eq!(tree(&x, &w, &mut y, 1, 256, 1), Ok(()));
            assert_eq!(y[0].to_bits(), 0x8000_0000);
            assert_eq!(running_sum(&x, &w, &mut y, 1, 256, 1), Ok(()));
            assert_eq!(y[0].to_bits(), 0x0000_0000);
        }
    }

    #[test]
    fn scratch_holds_the_last_row_decoded() {
        let x = two_rows();
        let mut y = [7.0; 4];
        let mut scratch = [7.0; 257];
        let w = [q4_k(1), q4_k(2)].concat();
        let done = linear_q4_k_cpu(&x, &w, &mut y, &mut scratch, 2, 256, 2);
        assert_eq!(done, Ok(()));
        assert_eq!(y, [32.0, 64.0, 64.0, 128.0]);
        assert_eq!(scratch[..32], [2.0; 32]);
        assert_eq!(scratch[32..256], [0.0; 224]);
        assert_eq!(scratch[256], 7.0);

        let w = [q6_k(1), q6_k(2)].concat();
        let done = linear_q6_k_cpu(&x, &w, &mut y, &mut scratch, 2, 256, 2);
        assert_eq!(done, Ok(()));
        assert_eq!(y, [512.0, 1024.0, 1024.0, 2048.0]);
        assert_eq!(scratch[15..17], [64.0, 0.0]);
    }

    #[test]
    fn two_rows_of_128_share_a_block() {
        let mut w = q4_k(3);
        // Sub-block 4, the first of the second row: scale 2, nibbles 5.
        w[12] = 2;
        w[80..112].fill(5);
        let mut y = [7.0; 2];
        let mut scratch = [7.0; 128];
        let done = linear_q4_k_cpu(&[1.0; 128], &w, &mut y, &mut scratch, 1, 128, 2);
        assert_eq!(done, Ok(()));
        assert_eq!(y, [96.0, 320.0]);
        assert_eq!(scratch[31..33], [10.0, 0.0]);
    }

    #[test]
    fn rows_of_q4_0() {
        let mut w = [0x88; 36];
        w[..3].copy_from_slice(&[0x00, 0x3C, 0x98]);
        w[18..21].copy_from_slice(&[0x00, 0x40, 0x8A]);
        let mut y = [7.0; 2];
        let mut scratch = [7.0; 32];
        let done = linear_q4_0_cpu(&[3.0; 32], &w, &mut y, &mut scratch, 1, 32, 2);
        assert_eq!(done, Ok(()));
        assert_eq!(y, [3.0, 12.0]);
        assert_eq!(scratch[..2], [4.0, 0.0]);
    }

    #[test]
    fn rows_of_q4_0_in_either_order() {
        // The scale is 1; the first byte has 1 in its high nibble, and all other weights are 0.
        let mut w = [0x88; 18];
        w[..3].copy_from_slice(&[0x00, 0x3C, 0x98]);
        let x: [f32; 32] = std::array::from_fn(|place| place as f32);
        let layers: [(Cpu, usize); 2] = [(linear_q4_0_cpu, 1), (linear_q4_0_ggml_cpu, 16)];
        for (layer, place) in layers {
            let (mut y, mut scratch) = ([7.0], [7.0; 33]);
            assert_eq!(layer(&x, &w, &mut y, &mut scratch, 1, 32, 1), Ok(()));
            assert_eq!(y, [place as f32]);
            let weights = std::array::from_fn(|at| match at {
                32 => 7.0,
                _ => [0.0, 1.0][usize::from(at == place)],
            });
            assert_eq!(scratch, weights);
        }
    }

    #[test]
    fn a_row_of_iq4_nl() {
        // The scale is 1; the first byte picks 113 at place 0 and -127 at place 16, and all others 1.
        let mut w = [0x88; 18];
        w[..3].copy_from_slice(&[0x00, 0x3C, 0x0F]);
        let mut x = [0.0; 32];
        x[0] = 1.0;
        x[16] = 2.0;
        x[31] = 3.0;
        let (mut y, mut scratch) = ([7.0], [7.0; 33]);
        assert_eq!(
            linear_iq4_nl_cpu(&x, &w, &mut y, &mut scratch, 1, 32, 1),
            Ok(())
        );
        assert_eq!(y, [113.0 - 2.0 * 127.0 + 3.0]);
        assert_eq!([scratch[0], scratch[1], scratch[16]], [113.0, 1.0, -127.0]);
        assert_eq!(scratch[32], 7.0);
    }

    #[test]
    fn a_layer_without_readings_looks_at_its_weights_and_writes_nothing() {
        let mut y = [7.0];
        let fused = |w: &[u8], y: &mut [f32]| linear_q4_k_fused(&[], w, y, 0, 256, 1);
        assert_eq!(fused(&[0; 143], &mut y), Err(short(0, 1)));
        assert_eq!(fused(&[0; 144], &mut y), Ok(()));
        let fused = |w: &[u8], y: &mut [f32]| linear_q5_k_fused(&[], w, y, 0, 256, 1);
        assert_eq!(fused(&[0; 175], &mut y), Err(short(0, 1)));
        assert_eq!(fused(&[0; 176], &mut y), Ok(()));
        let mut scratch = [7.0; 256];
        let w = q4_k(1);
        let done = linear_q4_k_cpu(&[], &w, &mut [], &mut scratch, 0, 256, 1);
        assert_eq!(done, Ok(()));
        assert_eq!(y, [7.0]);
        assert_eq!(scratch, [7.0; 256]);
    }

    #[test]
    fn refusals_come_in_their_order_and_keep_the_output() {
        let layers: [Plain; 9] = [
            linear_q4_k_fused,
            linear_q5_k_fused,
            linear_q6_k_fused,
            linear_q4_k_integer,
            linear_q5_k_integer,
            linear_q6_k_integer,
            linear_q4_k_integer_rs,
            linear_q5_k_integer_rs,
            linear_q6_k_integer_rs,
        ];
        for layer in layers {
            let mut y = [7.0; 1];
            let mut ask = |x: &[f32], w: &[u8], batch, in_feat, out_feat| {
                let said = layer(x, w, &mut y, batch, in_feat, out_feat);
                assert_eq!(y, [7.0]);
                said
            };
            assert_eq!(ask(&[], &[], MOST_BATCH + 1, 1, 1), Err(Refusal::TooLarge));
            assert_eq!(ask(&[], &[], 1, MOST_IN + 1, 1), Err(Refusal::TooLarge));
            assert_eq!(ask(&[], &[], 1, 1, MOST_OUT + 1), Err(Refusal::TooLarge));
            assert_eq!(ask(&[], &[], 2, 255, 1), Err(Refusal::NotAMultiple));
            assert_eq!(ask(&[], &[], 2, 256, 1), Err(short(0, 1)));
            assert_eq!(ask(&[], &[0; 210], 2, 256, 1), Err(Refusal::ReadingsShort));
            let x = [0.0; 512];
            assert_eq!(ask(&x, &[0; 210], 2, 256, 1), Err(Refusal::RoomShort));
        }
    }

    /// The layers without scratch, and how many bytes a block of each has.
    const LAYERS: [(Layer, usize); 9] = [
        (sys::jambharrow_linear_q4_k_fused, 144),
        (sys::jambharrow_linear_q5_k_fused, 176),
        (sys::jambharrow_linear_q6_k_fused, 210),
        (sys::jambharrow_linear_q4_k_integer, 144),
        (sys::jambharrow_linear_q5_k_integer, 176),
        (sys::jambharrow_linear_q6_k_integer, 210),
        (sys::jambharrow_linear_q4_k_integer_rs, 144),
        (sys::jambharrow_linear_q5_k_integer_rs, 176),
        (sys::jambharrow_linear_q6_k_integer_rs, 210),
    ];

    #[test]
    fn short_weights_are_counted_in_whole_blocks() {
        for (layer, block) in LAYERS {
            let of = |bytes: usize, sizes| linear(layer, &[], &vec![0; bytes], &mut [], sizes);
            // Weights of a layer of 2,048 to 16, and the same that were cut inside a block.
            assert_eq!(of(128 * block, [1, 4_096, 16]), Err(short(128, 256)));
            assert_eq!(of(128 * block - 1, [1, 4_096, 16]), Err(short(127, 256)));
            assert_eq!(of(256 * block - 1, [1, 4_096, 16]), Err(short(255, 256)));
            let most = [0, MOST_IN, MOST_OUT];
            assert_eq!(of(0, most), Err(short(0, 512 * 65_536)));
        }
    }

    #[test]
    fn counts_are_written_beside_3_alone() {
        let (x, w) = ([0.0; 512], [0; 420]);
        for (layer, block) in LAYERS {
            let ask = |readings, bytes, places, sizes| {
                let (mut y, mut counts) = ([7.0; 2], [7; 4]);
                let blocks = (&mut counts[1..3]).try_into().expect("two places");
                let y = &mut y[..places];
                (
                    number(layer, &x[..readings], &w[..bytes], y, sizes, blocks),
                    counts,
                )
            };
            let two = 2 * block;
            assert_eq!(ask(256, two, 2, [1, 256, 2]), (0, [7; 4]));
            assert_eq!(ask(0, 0, 0, [1, 255, 2]), (2, [7; 4]));
            assert_eq!(ask(512, two, 2, [1, 512, 2]), (3, [7, 2, 4, 7]));
            assert_eq!(ask(255, two, 2, [1, 256, 2]), (4, [7; 4]));
            assert_eq!(ask(256, two, 1, [1, 256, 2]), (5, [7; 4]));
            assert_eq!(ask(0, 0, 0, [1, MOST_IN + 256, 2]), (6, [7; 4]));
        }
    }

    /// A layer without scratch.
    type Plain = fn(&[f32], &[u8], &mut [f32], usize, usize, usize) -> Result<(), Refusal>;

    /// A `_cpu` layer.
    type Cpu =
        fn(&[f32], &[u8], &mut [f32], &mut [f32], usize, usize, usize) -> Result<(), Refusal>;

    /// What a layer of one row of 1.0 and one row of zero bytes says, given so many readings, bytes,
    /// places of output and of scratch; all of its memory is held to be kept.
    fn refusal(layer: Cpu, in_feat: usize, lengths: [usize; 4]) -> Option<Refusal> {
        let [readings, bytes, places, scratch] = lengths;
        let x = vec![1.0; readings];
        let w = vec![0; bytes];
        let mut y = vec![7.0; places];
        let mut room = vec![7.0; scratch];
        let said = layer(&x, &w, &mut y, &mut room, 1, in_feat, 1);
        assert_eq!(y, vec![7.0; places]);
        assert_eq!(room, vec![7.0; scratch]);
        said.err()
    }

    #[test]
    fn refusals_of_cpu_layers_come_in_their_order_and_keep_all_memory() {
        let layers: [(Cpu, usize); 2] = [(linear_q4_k_cpu, 144), (linear_q6_k_cpu, 210)];
        for (layer, block) in layers {
            let of = |in_feat, lengths| refusal(layer, in_feat, lengths);
            assert_eq!(of(MOST_IN + 1, [0, 0, 0, 0]), Some(Refusal::TooLarge));
            assert_eq!(of(256, [257, 1, 2, 0]), Some(Refusal::ReadingsShort));
            assert_eq!(of(256, [256, 1, 2, 0]), Some(Refusal::RoomShort));
            assert_eq!(of(256, [256, 1, 1, 0]), Some(Refusal::NotWholeBlocks));
            assert_eq!(of(256, [256, 0, 1, 0]), Some(Refusal::WeightsShort(None)));
            assert_eq!(of(256, [256, 2 * block, 1, 0]), Some(Refusal::WeightsLong));
            // Half of the block's weights are too many.
            assert_eq!(of(128, [128, block, 1, 0]), Some(Refusal::WeightsLong));
            assert_eq!(of(256, [256, block, 1, 255]), Some(Refusal::RoomShort));
        }
        let of_32: [Cpu; 3] = [linear_q4_0_cpu, linear_q4_0_ggml_cpu, linear_iq4_nl_cpu];
        for layer in of_32 {
            let of = |in_feat, lengths| refusal(layer, in_feat, lengths);
            assert_eq!(of(MOST_IN + 1, [0, 0, 0, 0]), Some(Refusal::TooLarge));
            assert_eq!(of(31, [33, 19, 2, 0]), Some(Refusal::NotAMultiple));
            assert_eq!(of(32, [33, 17, 2, 0]), Some(Refusal::WeightsShort(None)));
            assert_eq!(of(32, [33, 19, 2, 0]), Some(Refusal::WeightsLong));
            assert_eq!(of(32, [33, 18, 2, 0]), Some(Refusal::ReadingsShort));
            assert_eq!(of(32, [32, 18, 2, 0]), Some(Refusal::RoomShort));
            assert_eq!(of(32, [32, 18, 1, 31]), Some(Refusal::RoomShort));
        }
    }
}
