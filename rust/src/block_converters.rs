//! Converters between the two orders of Q4_0: the one of quant.rs, in which neighbours share a byte,
//! and GGML's, in which a byte has two values that are 16 places apart.
use crate::refusal::{done, Refusal};
use crate::sys::{self, Converter, Size};

#[inline]
fn convert(converter: Converter, bytes: &[u8], out: &mut [u8]) -> Result<(), Refusal> {
    let [bytes_len, out_len] = [bytes.len(), out.len()].map(|size| size as Size);
    // SAFETY: each pointer and length is a slice's, and what is written is lent to this call alone.
    done(unsafe { converter(bytes.as_ptr(), bytes_len, out.as_mut_ptr(), out_len) })
}

/// Writes the Q4_0 blocks, 18 bytes each, in GGML's order at the front of `out`, and keeps the places
/// behind them. The nibbles of a block move, and the two bytes of its scale are copied as they are:
/// [`dequantize_q4_0_ggml`](crate::dequantize_q4_0_ggml) of what is written gives the values that
/// [`dequantize_q4_0`](crate::dequantize_q4_0) gives of `bytes`. It refuses, in this order, as
/// [`Refusal::TooLarge`] more than [`MOST_BYTES`](crate::MOST_BYTES) bytes, as
/// [`Refusal::NotWholeBlocks`] bytes that are not whole blocks, and as [`Refusal::RoomShort`] an
/// `out` of fewer places than there are bytes.
///
/// ```
/// use jambharrow::{dequantize_q4_0, dequantize_q4_0_ggml, q4_0_from_ggml, q4_0_to_ggml};
///
/// // The scale is 1, and the values are -8, -7, .. 7, twice: neighbours share a byte.
/// let nibbles = [0x10, 0x32, 0x54, 0x76, 0x98, 0xBA, 0xDC, 0xFE].repeat(2);
/// let block = [&[0x00, 0x3C], &nibbles[..]].concat();
///
/// let mut ggml = [0; 18];
/// q4_0_to_ggml(&block, &mut ggml)?;
/// // Value j and value j + 16, which are alike here, share a byte.
/// assert_eq!(ggml[..6], [0x00, 0x3C, 0x00, 0x11, 0x22, 0x33]);
///
/// let (mut values, mut of_ggml) = ([0.0; 32], [0.0; 32]);
/// dequantize_q4_0(&block, &mut values)?;
/// dequantize_q4_0_ggml(&ggml, &mut of_ggml)?;
/// assert_eq!(values, of_ggml);
///
/// let mut back = [0; 18];
/// q4_0_from_ggml(&ggml, &mut back)?;
/// assert_eq!(back, block[..]);
/// # Ok::<(), jambharrow::Refusal>(())
/// ```
#[inline]
pub fn q4_0_to_ggml(bytes: &[u8], out: &mut [u8]) -> Result<(), Refusal> {
    convert(sys::jambharrow_q4_0_to_ggml, bytes, out)
}

/// Does the way back of [`q4_0_to_ggml`]: blocks in GGML's order become blocks in which neighbours
/// share a byte, as quant.rs has them.
#[inline]
pub fn q4_0_from_ggml(bytes: &[u8], out: &mut [u8]) -> Result<(), Refusal> {
    convert(sys::jambharrow_q4_0_from_ggml, bytes, out)
}

#[cfg(test)]
mod tests {
    use super::*;
    use crate::{
        dequantize_q4_0, dequantize_q4_0_ggml, quantize_q4_0, quantize_q4_0_ggml, Lost, MOST_BYTES,
    };

    const BOTH: [fn(&[u8], &mut [u8]) -> Result<(), Refusal>; 2] = [q4_0_to_ggml, q4_0_from_ggml];

    /// Blocks of all kinds of bytes; the scales of the first four are NaNs, of either sign and kind.
    fn blocks() -> [u8; 64 * 18] {
        let mut blocks: [u8; 64 * 18] =
            std::array::from_fn(|at| ((at as u32 + 1).wrapping_mul(0x9E37_79B9) >> 24) as u8);
        let nans: [u16; 4] = [0x7C01, 0x7E00, 0xFC01, 0xFFFF];
        for (block, nan) in blocks.chunks_exact_mut(18).zip(nans) {
            block[..2].copy_from_slice(&nan.to_le_bytes());
        }
        blocks
    }

    #[test]
    fn a_block_by_hand() {
        // The scale's bytes, and then nibbles that are all others than their neighbours.
        let paired = [
            0xAB, 0xCD, 0x10, 0x32, 0x54, 0x76, 0x98, 0xBA, 0xDC, 0xFE, 0x01, 0x23, 0x45, 0x67,
            0x89, 0xAB, 0xCD, 0xEF,
        ];
        let apart = [
            0xAB, 0xCD, 0x10, 0x01, 0x32, 0x23, 0x54, 0x45, 0x76, 0x67, 0x98, 0x89, 0xBA, 0xAB,
            0xDC, 0xCD, 0xFE, 0xEF,
        ];
        let mut out = [0xEE; 19];
        assert_eq!(q4_0_to_ggml(&paired, &mut out), Ok(()));
        assert_eq!(out[..18], apart);
        assert_eq!(out[18], 0xEE);
        assert_eq!(q4_0_from_ggml(&apart, &mut out), Ok(()));
        assert_eq!(out[..18], paired);
        assert_eq!(out[18], 0xEE);
    }

    #[test]
    fn there_and_back_restores_the_bytes() {
        let blocks = blocks();
        for [one, other] in [BOTH, [BOTH[1], BOTH[0]]] {
            let (mut there, mut back) = ([0; 64 * 18], [0; 64 * 18]);
            assert_eq!(one(&blocks, &mut there), Ok(()));
            assert_ne!(there, blocks);
            assert_eq!(other(&there, &mut back), Ok(()));
            assert_eq!(back, blocks);
        }
    }

    #[test]
    fn what_is_converted_has_the_same_values() {
        let blocks = blocks();
        let mut ggml = [0; 64 * 18];
        assert_eq!(q4_0_to_ggml(&blocks, &mut ggml), Ok(()));
        let (mut values, mut of_ggml) = ([0.0; 64 * 32], [0.0; 64 * 32]);
        assert_eq!(dequantize_q4_0(&blocks, &mut values), Ok(()));
        assert_eq!(dequantize_q4_0_ggml(&ggml, &mut of_ggml), Ok(()));
        for (place, (value, of_ggml)) in values.into_iter().zip(of_ggml).enumerate() {
            let same = value.to_bits() == of_ggml.to_bits();
            assert!(same || value.is_nan() && of_ggml.is_nan(), "place {place}");
        }
    }

    #[test]
    fn quantized_and_converted_is_quantized_to_the_other_order() {
        let data: [f32; 64] = std::array::from_fn(|place| (place * place % 37) as f32 - 18.0);
        let [mut paired, mut ggml, mut converted] = [[0; 36]; 3];
        assert_eq!(quantize_q4_0(&data, &mut paired), Ok(Lost::default()));
        assert_eq!(quantize_q4_0_ggml(&data, &mut ggml), Ok(Lost::default()));
        assert_eq!(q4_0_to_ggml(&paired, &mut converted), Ok(()));
        assert_eq!(converted, ggml);
        assert_eq!(q4_0_from_ggml(&ggml, &mut converted), Ok(()));
        assert_eq!(converted, paired);
    }

    #[test]
    fn refusals_come_in_their_order_and_keep_the_output() {
        let many = vec![0; MOST_BYTES + 1];
        for converter in BOTH {
            let mut out = [0xEE; 17];
            assert_eq!(converter(&many, &mut out), Err(Refusal::TooLarge));
            assert_eq!(converter(&[0; 19], &mut out), Err(Refusal::NotWholeBlocks));
            assert_eq!(converter(&[0; 18], &mut out), Err(Refusal::RoomShort));
            assert_eq!(converter(&[], &mut out), Ok(()));
            assert_eq!(out, [0xEE; 17]);
        }
    }
}
