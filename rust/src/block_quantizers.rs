//! Block quantizers: 32 readings become a scale and 32 small integers.
use crate::refusal::{done, Refusal};
use crate::sys::{self, Quantizer, Size};

/// What the blocks' scales lost when they were stored in binary16. The bytes are those of quant.rs
/// all the same.
#[derive(Debug, Default, Clone, Copy, PartialEq, Eq, Hash)]
#[must_use = "a block whose scale was lost decodes to zeros, or to infinities and NaN"]
pub struct Lost {
    /// How many scales were flushed to zero: those blocks decode to zeros.
    pub flushed: usize,
    /// How many were sent to infinity: those blocks decode to infinities and NaN.
    pub infinite: usize,
}

#[inline]
fn quantize(quantizer: Quantizer, data: &[f32], out: &mut [u8]) -> Result<Lost, Refusal> {
    let mut lost = [0; 2];
    done(number(quantizer, data, out, &mut lost))?;
    // Neither is more than the blocks of the readings.
    let [flushed, infinite] = lost.map(|count| count as usize);
    Ok(Lost { flushed, infinite })
}

/// The number that the call returns.
#[inline]
fn number(quantizer: Quantizer, data: &[f32], out: &mut [u8], lost: &mut [Size; 2]) -> u32 {
    let [data_len, out_len] = [data.len(), out.len()].map(|size| size as Size);
    // SAFETY: each pointer and length is a slice's, and what is written, the counts too, is lent to
    // this call alone.
    unsafe { quantizer(data.as_ptr(), data_len, out.as_mut_ptr(), out_len, lost) }
}

/// Writes the readings as Q4_0 blocks, 18 bytes to 32 readings, in order at the front of `out`, and
/// keeps the places behind them; it says how many of the blocks' scales were lost. A scale is the
/// first reading of largest magnitude over -8. It refuses, in this order, as [`Refusal::TooLarge`]
/// more than [`MOST_FLOATS`](crate::MOST_FLOATS) readings, as [`Refusal::NotAMultiple`] a count
/// that is not a multiple of 32, and as [`Refusal::RoomShort`] an `out` of fewer places than the
/// blocks have bytes.
///
/// ```
/// use jambharrow::{dequantize_q4_0, quantize_q4_0, Lost};
///
/// // Swings of a ten-thousandth: their scale is below the least that is stored, and they go flat.
/// let mut x: [f32; 32] = std::array::from_fn(|place| [0.0001, -0.0001][place % 2]);
/// let mut bytes = [0; 18];
/// let lost = quantize_q4_0(&x, &mut bytes)?;
/// assert_eq!(lost, Lost { flushed: 1, infinite: 0 });
/// let mut flat = [1.0; 32];
/// dequantize_q4_0(&bytes, &mut flat)?;
/// assert_eq!(flat, [0.0; 32]);
///
/// // The same readings in thousandths of the unit keep theirs.
/// x = x.map(|swing| swing * 1_000.0);
/// assert_eq!(quantize_q4_0(&x, &mut bytes)?, Lost::default());
/// # Ok::<(), jambharrow::Refusal>(())
/// ```
#[inline]
pub fn quantize_q4_0(data: &[f32], out: &mut [u8]) -> Result<Lost, Refusal> {
    quantize(sys::jambharrow_quantize_q4_0, data, out)
}

/// Does with Q4_0 blocks in GGML's order what [`quantize_q4_0`] does with its own: the same scales,
/// nibbles and counts, with the nibbles at the places of that order.
#[inline]
pub fn quantize_q4_0_ggml(data: &[f32], out: &mut [u8]) -> Result<Lost, Refusal> {
    quantize(sys::jambharrow_quantize_q4_0_ggml, data, out)
}

/// Does with Q8_0 blocks, 34 bytes to 32 readings, what [`quantize_q4_0`] does with its own. A scale
/// is the largest magnitude over 127.
#[inline]
pub fn quantize_q8_0(data: &[f32], out: &mut [u8]) -> Result<Lost, Refusal> {
    quantize(sys::jambharrow_quantize_q8_0, data, out)
}

/// Writes the readings as IQ4_NL blocks, 18 bytes to 32 readings, in order at the front of `out`, and
/// keeps the places behind them. The scale is given, the bits of a binary16, and every block stores
/// them as they are; none is picked, so none is lost. A reading becomes an integer from -127 to 127,
/// by the rule of [`quantize_block_q8`](crate::quantize_block_q8) with the scale, widened, as d, and
/// its nibble picks the value nearest to that, the lower of two as near. It refuses what
/// [`quantize_q4_0`] refuses, in the same order.
///
/// ```
/// use jambharrow::{dequantize_iq4_nl, quantize_iq4_nl};
///
/// // By a scale of a half 20 becomes 40, and the nearest of the sixteen values is 38. -3.6 becomes
/// // -7: the nearest is -10.
/// let mut x = [0.5; 32];
/// x[..2].copy_from_slice(&[20.0, -3.6]);
/// let mut bytes = [0; 18];
/// quantize_iq4_nl(&x, 0x3800, &mut bytes)?;
/// let mut out = [0.0; 32];
/// dequantize_iq4_nl(&bytes, &mut out)?;
/// assert_eq!(out[..3], [19.0, -5.0, 0.5]);
/// # Ok::<(), jambharrow::Refusal>(())
/// ```
#[inline]
pub fn quantize_iq4_nl(data: &[f32], scale: u16, out: &mut [u8]) -> Result<(), Refusal> {
    let [data_len, out_len] = [data.len(), out.len()].map(|size| size as Size);
    let (data, out) = (data.as_ptr(), out.as_mut_ptr());
    // SAFETY: each pointer and length is a slice's, and what is written is lent to this call alone.
    done(unsafe { sys::jambharrow_quantize_iq4_nl(data, data_len, scale, out, out_len) })
}

#[cfg(test)]
mod tests {
    use super::*;
    use crate::MOST_FLOATS;

    /// A quantizer.
    type Call = fn(&[f32], &mut [u8]) -> Result<Lost, Refusal>;

    /// What is said where no scale is lost.
    const NONE: Result<Lost, Refusal> = Ok(Lost {
        flushed: 0,
        infinite: 0,
    });

    #[test]
    fn the_bench_card() {
        let mut out = [0xEE; 19];
        assert_eq!(quantize_q4_0(&[0.0; 32], &mut out), NONE);
        assert_eq!(out[..2], [0x00, 0x80]);
        assert_eq!(out[2..18], [0x88; 16]);
        assert_eq!(out[18], 0xEE);
        let mut data = [0.0; 32];
        data[0] = 8.0;
        assert_eq!(quantize_q4_0(&data, &mut out), NONE);
        assert_eq!(out[..3], [0x00, 0xBC, 0x80]);
        assert_eq!(out[3..18], [0x88; 15]);
    }

    #[test]
    fn the_other_order_has_the_same_scale_and_nibbles() {
        // The scale is 1, and the nibbles are 0, 1, .. 15, 0, 1, .. 15.
        let data: [f32; 32] = std::array::from_fn(|place| (place % 16) as f32 - 8.0);
        let (mut paired, mut apart) = ([0xEE; 19], [0xEE; 19]);
        assert_eq!(quantize_q4_0(&data, &mut paired), NONE);
        assert_eq!(quantize_q4_0_ggml(&data, &mut apart), NONE);
        assert_eq!(paired[..5], [0x00, 0x3C, 0x10, 0x32, 0x54]);
        assert_eq!(paired[9..11], [0xFE, 0x10]);
        assert_eq!(apart[..5], [0x00, 0x3C, 0x00, 0x11, 0x22]);
        assert_eq!(apart[17..], [0xFF, 0xEE]);
    }

    #[test]
    fn signed_bytes() {
        let mut data = [0.0; 32];
        data[..3].copy_from_slice(&[127.0, -127.0, -1.0]);
        let mut out = [0xEE; 35];
        assert_eq!(quantize_q8_0(&data, &mut out), NONE);
        assert_eq!(out[..5], [0x00, 0x3C, 127, 129, 255]);
        assert_eq!(out[34], 0xEE);
    }

    /// What both quantizers lose of a block whose largest reading has these bits.
    fn lost_of(bits: u32) -> [[usize; 2]; 2] {
        let mut data = [0.0; 32];
        data[7] = f32::from_bits(bits);
        let counts = |said: Result<Lost, Refusal>| {
            let Lost { flushed, infinite } = said.expect("room for a block");
            [flushed, infinite]
        };
        [
            counts(quantize_q4_0(&data, &mut [0; 18])),
            counts(quantize_q8_0(&data, &mut [0; 34])),
        ]
    }

    #[test]
    fn where_a_scale_begins_to_be_lost() {
        let (none, flushed, infinite) = ([0, 0], [1, 0], [0, 1]);
        for sign in [0, 0x8000_0000] {
            let lost = |bits: u32| lost_of(sign | bits);
            // 2^-11 and 127 * 2^-14, and the numbers before them.
            assert_eq!(lost(0x39FF_FFFF), [flushed, flushed]);
            assert_eq!(lost(0x3A00_0000), [none, flushed]);
            assert_eq!(lost(0x3BFD_FFFF), [none, flushed]);
            assert_eq!(lost(0x3BFE_0000), [none, none]);
            // 2^19 and 127 * 2^16, and the numbers before them.
            assert_eq!(lost(0x48FF_FFFF), [none, none]);
            assert_eq!(lost(0x4900_0000), [infinite, none]);
            assert_eq!(lost(0x4AFD_FFFF), [infinite, none]);
            assert_eq!(lost(0x4AFE_0000), [infinite, infinite]);
            assert_eq!(lost(0x7F7F_FFFF), [infinite, infinite]);
            // An infinity is stored as one, and of a NaN no scale is made.
            assert_eq!(lost(0x7F80_0000), [none, none]);
            assert_eq!(lost(0x7FC0_0000), [none, none]);
            // 2^-147 and 63 * 2^-149 have a scale of 0 before it is stored.
            assert_eq!(lost(0x0000_0004), [none, none]);
            assert_eq!(lost(0x0000_0005), [flushed, none]);
            assert_eq!(lost(0x0000_003F), [flushed, none]);
            assert_eq!(lost(0x0000_0040), [flushed, flushed]);
        }
    }

    #[test]
    fn every_block_is_counted() {
        // Tiny, of a reading's size, huge, tiny, zero.
        let data = [1e-4, 1.0, 1e9, 1e-30, 0.0].map(|reading| [reading; 32]);
        let wanted = Ok(Lost {
            flushed: 2,
            infinite: 1,
        });
        let mut out = [0xEE; 5 * 34 + 1];
        for quantizer in [quantize_q4_0, quantize_q4_0_ggml, quantize_q8_0] {
            assert_eq!(quantizer(data.as_flattened(), &mut out), wanted);
        }
        assert_eq!(quantize_q4_0(&[], &mut out), NONE);
    }

    #[test]
    fn counts_are_written_where_a_call_did_its_work() {
        let quantizers: [(Quantizer, usize); 3] = [
            (sys::jambharrow_quantize_q4_0, 18),
            (sys::jambharrow_quantize_q4_0_ggml, 18),
            (sys::jambharrow_quantize_q8_0, 34),
        ];
        // The second block is sent to infinity, and all others are flushed.
        let mut data = vec![1e-4; MOST_FLOATS + 32];
        data[32] = 1e9;
        for (quantizer, block) in quantizers {
            let ask = |readings, places| {
                let (mut out, mut counts) = ([0; 4 * 34], [7; 4]);
                let lost = (&mut counts[1..3]).try_into().expect("two places");
                let out = &mut out[..places];
                (number(quantizer, &data[..readings], out, lost), counts)
            };
            assert_eq!(ask(128, 4 * block), (0, [7, 3, 1, 7]));
            assert_eq!(ask(0, 0), (0, [7, 0, 0, 7]));
            assert_eq!(ask(127, 4 * block), (2, [7; 4]));
            assert_eq!(ask(128, 4 * block - 1), (5, [7; 4]));
            assert_eq!(ask(MOST_FLOATS + 32, 0), (6, [7; 4]));
        }
    }

    #[test]
    fn refusals_in_their_order_keep_the_output() {
        let quantizers: [(Call, usize); 2] = [(quantize_q4_0_ggml, 18), (quantize_q8_0, 34)];
        let many = vec![0.0; MOST_FLOATS + 1];
        for (quantizer, block) in quantizers {
            let mut out = vec![0xEE; block - 1];
            assert_eq!(quantizer(&many, &mut out), Err(Refusal::TooLarge));
            assert_eq!(quantizer(&[0.0; 33], &mut out), Err(Refusal::NotAMultiple));
            assert_eq!(quantizer(&[0.0; 32], &mut out), Err(Refusal::RoomShort));
            assert_eq!(out, vec![0xEE; block - 1]);
        }
    }

    /// The nibbles of readings by a scale, which is stored as it is.
    fn nibbles(scale: u16, data: &[f32; 32]) -> [u8; 32] {
        let mut out = [0xEE; 19];
        assert_eq!(quantize_iq4_nl(data, scale, &mut out), Ok(()));
        assert_eq!(out[..2], scale.to_le_bytes());
        assert_eq!(out[18], 0xEE);
        std::array::from_fn(|place| out[2 + place % 16] >> (place / 16 * 4) & 15)
    }

    #[test]
    fn the_nearest_value_is_by_the_integer_and_the_lower_on_a_tie() {
        let mut data = [0.0; 32];
        // 7 is as far from 1 as from 13, and 7.4 becomes 7; so is -5 from -10 and 1. 127 is over
        // the highest value, and what is over 127 is held.
        data[..8].copy_from_slice(&[7.0, 7.4, 7.5, -5.0, -4.0, 127.0, 1e9, -1e9]);
        data[16] = -127.0;
        let nibbles = nibbles(0x3C00, &data);
        assert_eq!(nibbles[..8], [8, 8, 9, 7, 8, 15, 15, 0]);
        assert_eq!([nibbles[8], nibbles[16], nibbles[17]], [8, 0, 8]);
    }

    #[test]
    fn a_given_scale_is_stored_as_it_is() {
        let mut data = [1.0; 32];
        data[..3].copy_from_slice(&[f32::NAN, f32::INFINITY, -100.0]);
        // Zeros, infinities and NaN of either sign, signalling ones too: every integer is 0.
        for scale in [
            0x0000, 0x8000, 0x7C00, 0xFC00, 0x7E00, 0xFE00, 0x7C01, 0xFFFF,
        ] {
            assert_eq!(nibbles(scale, &data), [8; 32]);
        }
        // The least of all, which f32_to_f16 would flush: 2^-24.
        let tiny = data.map(|reading| reading / 16_777_216.0);
        assert_eq!(nibbles(0x0001, &tiny)[..4], [8, 15, 1, 8]);
    }

    #[test]
    fn what_is_given_its_scale_refuses_in_the_same_order() {
        let mut out = [0xEE; 17];
        let mut ask = |count| quantize_iq4_nl(&vec![0.0; count], 0x3C00, &mut out);
        assert_eq!(ask(MOST_FLOATS + 1), Err(Refusal::TooLarge));
        assert_eq!(ask(33), Err(Refusal::NotAMultiple));
        assert_eq!(ask(32), Err(Refusal::RoomShort));
        assert_eq!(ask(0), Ok(()));
        assert_eq!(out, [0xEE; 17]);
    }
}
