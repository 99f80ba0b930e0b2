//! Fused dots: a row of readings and a row of packed weights, which are decoded as they are
//! multiplied.
use crate::refusal::Refusal;
use crate::row_dot::row_dot;
use crate::sys;

/// The dot of the first `n` readings and the first `n` weights of the Q4_K blocks in `w_q4k`, in
/// the order of [`canonical_dot_pub`](crate::canonical_dot_pub) over the decoded weights. It refuses
/// as [`Refusal::TooLarge`] an `n` over [`MOST_IN`](crate::MOST_IN), and as
/// [`Refusal::NotWholeBlocks`] bytes that are not whole blocks; then `n` = 0 is answered with +0.0;
/// then it refuses, in this order, as [`Refusal::WeightsShort`] blocks of fewer than `n` weights,
/// which quant.rs adds up, and as [`Refusal::ReadingsShort`] fewer than `n` readings.
#[inline]
pub fn canonical_dot_q4k_fused(x: &[f32], w_q4k: &[u8], n: usize) -> Result<f32, Refusal> {
    row_dot(sys::jambharrow_canonical_dot_q4k_fused, x, w_q4k, n)
}

/// Does with Q5_K blocks what [`canonical_dot_q4k_fused`] does with its own.
///
/// ```
/// // A block whose first 32 weights are 16, and the others 0: their fifth bits alone are set.
/// let mut w = [0; 176];
/// w[..2].copy_from_slice(&[0x00, 0x3C]);
/// w[4] = 1;
/// w[16..48].fill(0xFF);
/// let dot = jambharrow::canonical_dot_q5k_fused(&[1.0; 256], &w, 256)?;
/// assert_eq!(dot, 512.0);
/// # Ok::<(), jambharrow::Refusal>(())
/// ```
#[inline]
pub fn canonical_dot_q5k_fused(x: &[f32], w_q5k: &[u8], n: usize) -> Result<f32, Refusal> {
    row_dot(sys::jambharrow_canonical_dot_q5k_fused, x, w_q5k, n)
}

/// Does with Q6_K blocks what [`canonical_dot_q4k_fused`] does with its own.
#[inline]
pub fn q6k_fused_f32_dot(x: &[f32], w_q6k: &[u8], n: usize) -> Result<f32, Refusal> {
    row_dot(sys::jambharrow_q6k_fused_f32_dot, x, w_q6k, n)
}

#[cfg(test)]
mod tests {
    use super::*;
    use crate::refusal::short;
    use crate::MOST_IN;

    /// A fused dot.
    type Dot = fn(&[f32], &[u8], usize) -> Result<f32, Refusal>;

    /// A Q4_K block whose first 32 weights are 1, and the others 0.
    fn q4_k() -> [u8; 144] {
        let mut block = [0; 144];
        block[..2].copy_from_slice(&[0x00, 0x3C]);
        block[4] = 1;
        block[16..].fill(0x11);
        block
    }

    /// A Q5_K block whose first 32 weights are 17, and the others 0.
    fn q5_k() -> [u8; 176] {
        let mut block = [0; 176];
        block[..2].copy_from_slice(&[0x00, 0x3C]);
        block[4] = 1;
        block[16..48].fill(0x01);
        block[48..].fill(0x11);
        block
    }

    /// A Q6_K block whose first 16 weights are 64, and the others 0: each quant is 0 - 32.
    fn q6_k() -> [u8; 210] {
        let mut block = [0; 210];
        block[192] = 0xFE;
        block[209] = 0x3C;
        block
    }

    #[test]
    fn the_first_n_places_count() {
        let x = [1.0; 300];
        let w = [q4_k(), q4_k()].concat();
        assert_eq!(canonical_dot_q4k_fused(&x, &w, 256), Ok(32.0));
        assert_eq!(canonical_dot_q4k_fused(&x, &w, 31), Ok(31.0));
        assert_eq!(canonical_dot_q4k_fused(&x, &w, 257), Ok(33.0));
        let w = [q5_k(), q5_k()].concat();
        assert_eq!(canonical_dot_q5k_fused(&x, &w, 256), Ok(544.0));
        assert_eq!(canonical_dot_q5k_fused(&x, &w, 31), Ok(527.0));
        assert_eq!(canonical_dot_q5k_fused(&x, &w, 257), Ok(561.0));
        let w = [q6_k(), q6_k()].concat();
        assert_eq!(q6k_fused_f32_dot(&x, &w, 256), Ok(1024.0));
        assert_eq!(q6k_fused_f32_dot(&x, &w, 15), Ok(960.0));
        assert_eq!(q6k_fused_f32_dot(&x, &w, 258), Ok(1152.0));
    }

    #[test]
    fn refusals_come_in_their_order() {
        let x = [1.0; 257];
        let dots: [(Dot, &[u8]); 2] = [
            (canonical_dot_q4k_fused, &q4_k()),
            (canonical_dot_q5k_fused, &q5_k()),
        ];
        for (dot, w) in dots {
            let dot = |w: &[u8], n| dot(&x, w, n);
            assert_eq!(dot(&w[1..], MOST_IN + 1), Err(Refusal::TooLarge));
            assert_eq!(dot(&w[1..], 0), Err(Refusal::NotWholeBlocks));
            assert_eq!(dot(w, 0).map(f32::to_bits), Ok(0));
            assert_eq!(dot(w, 258), Err(short(1, 2)));
            assert_eq!(dot(&[w, w].concat(), 258), Err(Refusal::ReadingsShort));
        }
        let w = q6_k();
        assert_eq!(q6k_fused_f32_dot(&x, &w, 257), Err(short(1, 2)));
    }
}
