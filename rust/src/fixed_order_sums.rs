//! Fixed-order sums: each adds in one order, so that a result has one set of bits.
use crate::refusal::{answer, Refusal};
use crate::sys::{self, Size};

/// The dot of all of `x` and the front of `w`, as one chunk: eight lanes start at +0.0, product i
/// is added to lane i mod 8, i rising, and the lanes meet in the tree of [`canonical_combine`].
/// Weights behind the front are not looked at. It refuses, in this order, as [`Refusal::TooLarge`]
/// more than [`MOST_FLOATS`](crate::MOST_FLOATS) readings, and as [`Refusal::WeightsShort`] fewer
/// weights than readings.
#[inline]
pub fn canonical_chunk(x: &[f32], w: &[f32]) -> Result<f32, Refusal> {
    let [x_len, w_len] = [x.len(), w.len()].map(|size| size as Size);
    answer(|value| {
        // SAFETY: each pointer and length is a slice's, and the value's place is no part of them.
        unsafe { sys::jambharrow_canonical_chunk(x.as_ptr(), x_len, w.as_ptr(), w_len, value) }
    })
}

/// The pairwise tree over a slice of any length: neighbours are added, an odd last one moves up,
/// until one is left; an empty tree is +0.0. It is worked in the slice: each round fills the front
/// half and leaves the places behind it as they are. It never refuses.
#[inline]
pub fn canonical_combine(part: &mut [f32]) -> f32 {
    // SAFETY: the pointer and the length are a slice's, which is lent to this call alone.
    unsafe { sys::jambharrow_canonical_combine(part.as_mut_ptr(), part.len() as Size) }
}

/// The dot of the first `n` readings and weights, as a row: the sums of its chunks, of 8,192 places
/// each, meet in the tree. What stands behind them is not looked at. It refuses as
/// [`Refusal::TooLarge`] an `n` over [`MOST_IN`](crate::MOST_IN); then `n` = 0 is answered with
/// +0.0; then it refuses, in this order, as [`Refusal::WeightsShort`] fewer than `n` weights, and
/// as [`Refusal::ReadingsShort`] fewer than `n` readings.
#[inline]
pub fn canonical_dot_pub(x: &[f32], w: &[f32], n: usize) -> Result<f32, Refusal> {
    let [x_len, w_len, n] = [x.len(), w.len(), n].map(|size| size as Size);
    answer(|value| {
        // SAFETY: each pointer and length is a slice's, and the value's place is no part of them.
        unsafe { sys::jambharrow_canonical_dot_pub(x.as_ptr(), x_len, w.as_ptr(), w_len, n, value) }
    })
}

/// The sum of the first `n` readings, as a row; what stands behind them is not looked at. It
/// refuses as [`Refusal::TooLarge`] an `n` over [`MOST_IN`](crate::MOST_IN); then `n` = 0 is
/// answered with +0.0; then it refuses as [`Refusal::ReadingsShort`] fewer than `n` readings.
#[inline]
pub fn canonical_sum_pub(x: &[f32], n: usize) -> Result<f32, Refusal> {
    let [x_len, n] = [x.len(), n].map(|size| size as Size);
    answer(|value| {
        // SAFETY: the pointer and the length are a slice's, and the value's place is no part of it.
        unsafe { sys::jambharrow_canonical_sum_pub(x.as_ptr(), x_len, n, value) }
    })
}

#[cfg(test)]
mod tests {
    use super::*;
    use crate::{MOST_FLOATS, MOST_IN};

    #[test]
    fn a_sum_has_one_order() {
        let x = [16_777_216.0, 1.0, 1.0];
        assert_eq!(canonical_sum_pub(&x, 3), Ok(16_777_216.0));
        assert_eq!(canonical_dot_pub(&x, &[1.0; 3], 3), Ok(16_777_216.0));
        assert_eq!(canonical_chunk(&x, &[1.0; 3]), Ok(16_777_216.0));
    }

    #[test]
    fn nothing_adds_up_to_plus_nought() {
        let nought = Ok(0.0f32.to_bits());
        assert_eq!(canonical_dot_pub(&[], &[], 0).map(f32::to_bits), nought);
        assert_eq!(canonical_sum_pub(&[], 0).map(f32::to_bits), nought);
        assert_eq!(canonical_chunk(&[], &[]).map(f32::to_bits), nought);
        assert_eq!(canonical_combine(&mut []).to_bits(), 0);
    }

    #[test]
    fn the_tree_leaves_the_places_behind_the_front_half() {
        let mut part = [1.0, 2.0, 4.0, 8.0, 16.0];
        assert_eq!(canonical_combine(&mut part), 31.0);
        assert_eq!(part, [31.0, 16.0, 16.0, 8.0, 16.0]);
    }

    #[test]
    fn refusals_come_in_their_order() {
        let over = vec![0.0; MOST_FLOATS + 1];
        assert_eq!(canonical_chunk(&over, &[]), Err(Refusal::TooLarge));
        let plain = Refusal::WeightsShort(None);
        assert_eq!(canonical_chunk(&[0.0], &[]), Err(plain));
        let dot = |n| canonical_dot_pub(&[0.0], &[], n);
        assert_eq!(dot(MOST_IN + 1), Err(Refusal::TooLarge));
        assert_eq!(dot(0), Ok(0.0));
        assert_eq!(dot(2), Err(plain));
        assert_eq!(
            canonical_dot_pub(&[0.0], &[0.0; 2], 2),
            Err(Refusal::ReadingsShort)
        );
        let sum = |n| canonical_sum_pub(&[0.0], n);
        assert_eq!(sum(MOST_IN + 1), Err(Refusal::TooLarge));
        assert_eq!(sum(2), Err(Refusal::ReadingsShort));
    }

    #[test]
    fn a_refusal_writes_no_value() {
        let mut value = 7.0;
        let x = [0.0];
        // SAFETY: each pointer and length is a slice's, and the value's place is no part of it.
        let number = unsafe { sys::jambharrow_canonical_sum_pub(x.as_ptr(), 1, 2, &mut value) };
        assert_eq!(number, Refusal::ReadingsShort.number());
        assert_eq!(value, 7.0);
    }
}
