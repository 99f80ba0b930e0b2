//! Block decoders: packed blocks become floats.
use crate::refusal::{done, Refusal};
use crate::sys::{self, Decoder, Size};

#[inline]
fn decode(decoder: Decoder, bytes: &[u8], out: &mut [f32]) -> Result<(), Refusal> {
    let [bytes_len, out_len] = [bytes.len(), out.len()].map(|size| size as Size);
    // SAFETY: each pointer and length is a slice's, and what is written is lent to this call alone.
    done(unsafe { decoder(bytes.as_ptr(), bytes_len, out.as_mut_ptr(), out_len) })
}

/// Writes every value of the Q4_0 blocks, 18 bytes to 32 values, in order at the front of `out`,
/// and keeps the places behind them. Neighbours share a byte, as in quant.rs; blocks in GGML's order
/// are for [`dequantize_q4_0_ggml`]. It refuses, in this order, as [`Refusal::TooLarge`] more than
/// [`MOST_BYTES`](crate::MOST_BYTES) bytes, as [`Refusal::NotWholeBlocks`] bytes that are not whole
/// blocks, and as [`Refusal::RoomShort`] an `out` of fewer places than the blocks have values.
#[inline]
pub fn dequantize_q4_0(bytes: &[u8], out: &mut [f32]) -> Result<(), Refusal> {
    decode(sys::jambharrow_dequantize_q4_0, bytes, out)
}

/// Does with Q4_0 blocks in GGML's order what [`dequantize_q4_0`] does with its own: byte j of the
/// nibbles has value j in its low nibble and value j + 16 in its high one. Nothing in a block says
/// which order it has.
///
/// ```
/// use jambharrow::{dequantize_q4_0, dequantize_q4_0_ggml};
///
/// // The scale is 1. The first byte has 7 + 8 in its low nibble and 1 + 8 in its high one, and all
/// // other values are 0.
/// let mut block = [0x88; 18];
/// block[..3].copy_from_slice(&[0x00, 0x3C, 0x9F]);
/// let mut out = [0.0; 32];
/// dequantize_q4_0_ggml(&block, &mut out)?;
/// assert_eq!([out[0], out[1], out[16]], [7.0, 0.0, 1.0]);
/// // Read by the other order, the second value is at another place.
/// dequantize_q4_0(&block, &mut out)?;
/// assert_eq!([out[0], out[1], out[16]], [7.0, 1.0, 0.0]);
/// # Ok::<(), jambharrow::Refusal>(())
/// ```
#[inline]
pub fn dequantize_q4_0_ggml(bytes: &[u8], out: &mut [f32]) -> Result<(), Refusal> {
    decode(sys::jambharrow_dequantize_q4_0_ggml, bytes, out)
}

/// Does with Q5_0 blocks, 22 bytes to 32 values, what [`dequantize_q4_0`] does with its own.
#[inline]
pub fn dequantize_q5_0(bytes: &[u8], out: &mut [f32]) -> Result<(), Refusal> {
    decode(sys::jambharrow_dequantize_q5_0, bytes, out)
}

/// Does with Q8_0 blocks, 34 bytes to 32 values, what [`dequantize_q4_0`] does with its own.
#[inline]
pub fn dequantize_q8_0(bytes: &[u8], out: &mut [f32]) -> Result<(), Refusal> {
    decode(sys::jambharrow_dequantize_q8_0, bytes, out)
}

/// Does with IQ4_NL blocks, 18 bytes to 32 values, what [`dequantize_q4_0`] does with its own: byte j
/// of the nibbles has value j in its low nibble and value j + 16 in its high one, and a nibble picks
/// from sixteen values, which is multiplied by the scale.
///
/// ```
/// // The scale is 2. The first byte picks the lowest of the sixteen values, -127, and the highest,
/// // 113; all others pick 1.
/// let mut block = [0x88; 18];
/// block[..3].copy_from_slice(&[0x00, 0x40, 0xF0]);
/// let mut out = [0.0; 32];
/// jambharrow::dequantize_iq4_nl(&block, &mut out)?;
/// assert_eq!([out[0], out[1], out[16]], [-254.0, 2.0, 226.0]);
/// # Ok::<(), jambharrow::Refusal>(())
/// ```
#[inline]
pub fn dequantize_iq4_nl(bytes: &[u8], out: &mut [f32]) -> Result<(), Refusal> {
    decode(sys::jambharrow_dequantize_iq4_nl, bytes, out)
}

/// Does with Q4_K blocks, 144 bytes to 256 values, what [`dequantize_q4_0`] does with its own.
#[inline]
pub fn dequantize_q4_k(bytes: &[u8], out: &mut [f32]) -> Result<(), Refusal> {
    decode(sys::jambharrow_dequantize_q4_k, bytes, out)
}

/// Does with Q5_K blocks, 176 bytes to 256 values, what [`dequantize_q4_0`] does with its own. The
/// scales, minimums and nibbles are those of Q4_K; the fifth bit of place l of sub-block j, which
/// counts 16, is bit j of byte l of 32 that stand before the nibbles.
///
/// ```
/// // d and the first scale are 1, and of the first 32 whole numbers the first alone has its fifth bit.
/// let mut block = [0; 176];
/// block[..2].copy_from_slice(&[0x00, 0x3C]);
/// block[4] = 1;
/// block[16] = 0b0000_0001;
/// block[48..].fill(0x03);
/// let mut out = [0.0; 256];
/// jambharrow::dequantize_q5_k(&block, &mut out)?;
/// assert_eq!(out[..3], [19.0, 3.0, 3.0]);
/// # Ok::<(), jambharrow::Refusal>(())
/// ```
#[inline]
pub fn dequantize_q5_k(bytes: &[u8], out: &mut [f32]) -> Result<(), Refusal> {
    decode(sys::jambharrow_dequantize_q5_k, bytes, out)
}

/// Does with Q6_K blocks, 210 bytes to 256 values, what [`dequantize_q4_0`] does with its own.
#[inline]
pub fn dequantize_q6_k(bytes: &[u8], out: &mut [f32]) -> Result<(), Refusal> {
    decode(sys::jambharrow_dequantize_q6_k, bytes, out)
}

#[cfg(test)]
mod tests {
    use super::*;
    use crate::MOST_BYTES;

    #[test]
    fn a_block_of_32_values() {
        let mut q4_0 = [0; 18];
        q4_0[..4].copy_from_slice(&[0x00, 0x40, 0x0F, 0x80]);
        let mut out = [0.0; 32];
        assert_eq!(dequantize_q4_0(&q4_0, &mut out), Ok(()));
        assert_eq!(out[..5], [14.0, -16.0, -16.0, 0.0, -16.0]);

        let mut q5_0 = [0; 22];
        q5_0[..7].copy_from_slice(&[0x00, 0x3C, 0x01, 0x00, 0x01, 0x00, 0x32]);
        assert_eq!(dequantize_q5_0(&q5_0, &mut out), Ok(()));
        assert_eq!([out[0], out[1], out[16], out[17]], [2.0, -16.0, 3.0, -16.0]);

        let mut q8_0 = [0; 34];
        q8_0[..4].copy_from_slice(&[0x00, 0xC0, 0x80, 0x7F]);
        assert_eq!(dequantize_q8_0(&q8_0, &mut out), Ok(()));
        assert_eq!(out[..3], [256.0, -254.0, -0.0]);
    }

    /// The 32 values of a block, by a decoder.
    fn decoded(
        decoder: fn(&[u8], &mut [f32]) -> Result<(), Refusal>,
        block: &[u8; 18],
    ) -> [f32; 32] {
        let mut out = [7.0; 32];
        assert_eq!(decoder(block, &mut out), Ok(()));
        out
    }

    #[test]
    fn a_nibble_is_at_the_place_of_its_order() {
        for byte in 0..16 {
            for (shift, beside, apart) in [(0, 2 * byte, byte), (4, 2 * byte + 1, byte + 16)] {
                // The scale is 1, one nibble 5 + 8, and all others 8.
                let mut block = [0x88; 18];
                block[..2].copy_from_slice(&[0x00, 0x3C]);
                block[2 + byte] ^= 5 << shift;
                let five_at =
                    |place| std::array::from_fn(|at| [0.0, 5.0][usize::from(at == place)]);
                assert_eq!(decoded(dequantize_q4_0, &block), five_at(beside));
                assert_eq!(decoded(dequantize_q4_0_ggml, &block), five_at(apart));
            }
        }
    }

    #[test]
    fn every_nibble_picks_its_value() {
        const VALUES: [f32; 16] = [
            -127.0, -104.0, -83.0, -65.0, -49.0, -35.0, -22.0, -10.0, 1.0, 13.0, 25.0, 38.0, 53.0,
            69.0, 89.0, 113.0,
        ];
        // The scale is -0.5; byte j has the nibbles j and 15 - j.
        let mut block = [0; 18];
        block[..2].copy_from_slice(&[0x00, 0xB8]);
        for j in 0..16 {
            block[2 + usize::from(j)] = j | (15 - j) << 4;
        }
        let picked = |place: usize| match place {
            0..16 => VALUES[place],
            _ => VALUES[31 - place],
        };
        assert_eq!(
            decoded(dequantize_iq4_nl, &block),
            std::array::from_fn(|place| -0.5 * picked(place))
        );
    }

    #[test]
    fn a_block_of_256_values() {
        let mut out = [0.0; 256];
        let mut q4_k = [0; 144];
        // d and dmin 1; the first scale 3, the first minimum 5; the first byte of nibbles 0xA2.
        q4_k[..5].copy_from_slice(&[0x00, 0x3C, 0x00, 0x3C, 3]);
        q4_k[8] = 5;
        q4_k[16] = 0xA2;
        assert_eq!(dequantize_q4_k(&q4_k, &mut out), Ok(()));
        assert_eq!([out[0], out[1], out[32]], [1.0, -5.0, 0.0]);

        let mut q6_k = [0; 210];
        // The first quant 33 of 64, the first scale -2, d 1.
        q6_k[0] = 0x01;
        q6_k[128] = 0x02;
        q6_k[192] = 0xFE;
        q6_k[209] = 0x3C;
        assert_eq!(dequantize_q6_k(&q6_k, &mut out), Ok(()));
        assert_eq!([out[0], out[1]], [-2.0, 64.0]);
    }

    #[test]
    fn a_fifth_bit_is_that_of_its_sub_block_and_place() {
        // d and dmin 1; all scales and minimums 1; each nibble 2.
        let mut q5_k = [0; 176];
        q5_k[..4].copy_from_slice(&[0x00, 0x3C, 0x00, 0x3C]);
        q5_k[4..12].fill(1);
        q5_k[12..16].fill(0x11);
        q5_k[48..].fill(0x22);
        for sub_block in 0..8 {
            for place in [0, 1, 30, 31] {
                let mut block = q5_k;
                block[16 + place] = 1 << sub_block;
                let mut wanted = [1.0; 256];
                wanted[32 * sub_block + place] = 17.0;
                let mut out = [7.0; 256];
                assert_eq!(dequantize_q5_k(&block, &mut out), Ok(()));
                assert_eq!(out, wanted);
            }
        }
    }

    #[test]
    fn surplus_places_are_kept() {
        let mut out = [7.0; 34];
        assert_eq!(dequantize_q8_0(&[0; 34], &mut out), Ok(()));
        assert_eq!(out[31..], [0.0, 7.0, 7.0]);
        assert_eq!(dequantize_q8_0(&[], &mut out), Ok(()));
        assert_eq!(out[0], 0.0);
    }

    #[test]
    fn refusals_come_in_their_order_and_keep_the_output() {
        let many = vec![0; MOST_BYTES + 1];
        for decoder in [dequantize_q4_0, dequantize_q4_0_ggml, dequantize_iq4_nl] {
            let mut out = [7.0; 31];
            assert_eq!(decoder(&many, &mut out), Err(Refusal::TooLarge));
            assert_eq!(decoder(&[0; 19], &mut out), Err(Refusal::NotWholeBlocks));
            assert_eq!(decoder(&[0; 18], &mut out), Err(Refusal::RoomShort));
            assert_eq!(out, [7.0; 31]);
        }
        let mut out = [7.0; 255];
        let mut ask = |bytes| dequantize_q5_k(&vec![0; bytes], &mut out);
        assert_eq!(ask(MOST_BYTES + 1), Err(Refusal::TooLarge));
        assert_eq!(ask(177), Err(Refusal::NotWholeBlocks));
        assert_eq!(ask(176), Err(Refusal::RoomShort));
        assert_eq!(out, [7.0; 255]);
    }
}
