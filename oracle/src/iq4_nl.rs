//! IQ4_NL, which the Rust does not have: a reference by the layout that GGML publishes, block_iq4_nl,
//! and by document 02's rule for the quantizer. The fixed order of a layer's sums and the widening of
//! a half are the Rust's.
use oracle::error::{Error, Result};
use oracle::ops::quant;

/// The bytes and the values of a block, the bytes of its scale, and how far apart the two values of a
/// byte are.
const BYTES: usize = 18;
const VALUES: usize = 32;
const SCALE: usize = 2;
const APART: usize = 16;

/// What a nibble picks, as GGML has it in kvalues_iq4nl and document 02 in words.
pub const PICKED: [i8; 16] = [
    -127, -104, -83, -65, -49, -35, -22, -10, 1, 13, 25, 38, 53, 69, 89, 113,
];

/// Packed blocks as floats, as GGML's dequantize_row_iq4_nl goes over them.
pub fn dequantize(bytes: &[u8]) -> Result<Vec<f32>> {
    if bytes.len() % BYTES != 0 {
        return Err(Error::Internal("IQ4_NL: byte length not a multiple of 18"));
    }
    let mut y = vec![0.0; bytes.len() / BYTES * VALUES];
    for (block, y) in bytes.chunks_exact(BYTES).zip(y.chunks_exact_mut(VALUES)) {
        let (scale, qs) = block.split_at(SCALE);
        let d = widened(u16::from_le_bytes([scale[0], scale[1]]));
        for (j, q) in qs.iter().enumerate() {
            y[j] = d * f32::from(PICKED[usize::from(q & 0x0F)]);
            y[j + APART] = d * f32::from(PICKED[usize::from(q >> 4)]);
        }
    }
    Ok(y)
}

/// A layer of row dots over decoded weights.
pub fn linear_cpu(
    x: &[f32],
    w: &[u8],
    y: &mut [f32],
    batch: usize,
    in_feat: usize,
    out_feat: usize,
) -> Result<()> {
    if in_feat % VALUES != 0 {
        return Err(Error::Internal("IQ4_NL: in_feat not a multiple of 32"));
    }
    let given = [w.len(), x.len(), y.len()];
    let blocks = out_feat * (in_feat / VALUES);
    if given != [blocks * BYTES, batch * in_feat, batch * out_feat] {
        return Err(Error::Internal("IQ4_NL: a length is not that of the layer"));
    }
    let weights = dequantize(w)?;
    for (place, y) in y.iter_mut().enumerate() {
        let (b, o) = (place / out_feat, place % out_feat);
        let x = &x[b * in_feat..][..in_feat];
        let row = &weights[o * in_feat..][..in_feat];
        *y = quant::canonical_dot_pub(x, row, in_feat);
    }
    Ok(())
}

/// The blocks of these readings by one scale, a half, which each block stores as it is.
pub fn quantize(data: &[f32], scale: u16) -> Result<Vec<u8>> {
    if data.len() % VALUES != 0 {
        return Err(Error::Internal("IQ4_NL: count not a multiple of 32"));
    }
    let d = widened(scale);
    let mut bytes = Vec::with_capacity(data.len() / VALUES * BYTES);
    for block in data.chunks_exact(VALUES) {
        let nibbles: Vec<u8> = block.iter().map(|&x| nearest(integer(x, d))).collect();
        bytes.extend(scale.to_le_bytes());
        bytes.extend((0..APART).map(|j| nibbles[j] | nibbles[j + APART] << 4));
    }
    Ok(bytes)
}

/// The integer of a reading, by document 01's rule for Q8 with this d.
pub fn integer(reading: f32, d: f32) -> i32 {
    let inverse = if d == 0.0 { 0.0 } else { 1.0 / d };
    let product = reading * inverse;
    let rounded = if product >= 0.0 {
        product + 0.5
    } else {
        product - 0.5
    };
    // A cast truncates, holds at the ends of i32, and makes NaN 0.
    (rounded as i32).clamp(-127, 127)
}

/// The nibble that picks the value nearest to an integer, and of two as near the lower.
pub fn nearest(integer: i32) -> u8 {
    let value = |nibble: &u8| i32::from(PICKED[usize::from(*nibble)]);
    let far = |nibble: &u8| ((integer - value(nibble)).abs(), value(nibble));
    (0..16).min_by_key(far).expect("there are sixteen")
}

pub fn widened(half: u16) -> f32 {
    quant::reach::f16_to_f32(half)
}

#[cfg(test)]
mod tests {
    use super::*;

    /// Document 02: low nibbles are the values 0 to 15, and high nibbles 16 to 31.
    #[test]
    fn values_are_at_the_places_of_document_02() {
        // The scale is -2, and byte j has the nibbles j and 15 - j.
        let mut block = [0; BYTES];
        block[..2].copy_from_slice(&[0x00, 0xC0]);
        for j in 0..16 {
            block[2 + j as usize] = j | (15 - j) << 4;
        }
        let values = dequantize(&block).expect("a whole block");
        let low = PICKED.iter().map(|&value| -2.0 * f32::from(value));
        let high = PICKED.iter().rev().map(|&value| -2.0 * f32::from(value));
        assert_eq!(values, low.chain(high).collect::<Vec<f32>>());
    }

    #[test]
    fn the_integers_between_two_values_as_near_are_few() {
        let far = |integer: i32, value: i8| (integer - i32::from(value)).abs();
        let ties = |integer: &i32| {
            let nearest = far(*integer, PICKED[usize::from(nearest(*integer))]);
            PICKED
                .iter()
                .filter(|v| far(*integer, **v) == nearest)
                .count()
                == 2
        };
        let ties: Vec<i32> = (-127..=127).filter(ties).collect();
        assert_eq!(ties, [-74, -57, -42, -16, 7, 19, 61, 79, 101]);
        let lower: Vec<u8> = ties.into_iter().map(nearest).collect();
        assert_eq!(lower, [2, 3, 4, 6, 8, 9, 12, 13, 14]);
    }

    #[test]
    fn a_reading_becomes_an_integer_by_hand() {
        for (reading, d, wanted) in [
            (0.49999997, 1.0, 1),
            (-0.5, 1.0, -1),
            (7.4, 1.0, 7),
            (1e9, 1.0, 127),
            (f32::NAN, 1.0, 0),
            (5.0, 0.0, 0),
            (5.0, f32::INFINITY, 0),
            (f32::INFINITY, f32::INFINITY, 0),
            (5.0, f32::NAN, 0),
        ] {
            assert_eq!(integer(reading, d), wanted, "{reading} by {d}");
        }
    }
}
