//! The dot of a row of readings and a row of packed blocks, whichever blocks they are.
use crate::refusal::{counted_answer, Refusal};
use crate::sys::{RowDot, Size};

#[inline]
pub(crate) fn row_dot(dot: RowDot, x: &[f32], w: &[u8], n: usize) -> Result<f32, Refusal> {
    counted_answer(|value, blocks| number(dot, x, w, n, value, blocks))
}

/// The number that the call returns.
#[inline]
fn number(
    dot: RowDot,
    x: &[f32],
    w: &[u8],
    n: usize,
    value: &mut f32,
    blocks: &mut [Size; 2],
) -> u32 {
    let [x_len, w_len, n] = [x.len(), w.len(), n].map(|size| size as Size);
    // SAFETY: each pointer and length is a slice's, and what is written is lent to this call alone.
    unsafe { dot(x.as_ptr(), x_len, w.as_ptr(), w_len, n, value, blocks) }
}

#[cfg(test)]
mod tests {
    use super::*;
    use crate::refusal::short;
    use crate::{sys, MOST_IN};

    /// The row dots, and how many bytes a block of each has.
    const DOTS: [(RowDot, usize); 5] = [
        (sys::jambharrow_integer_dot_q4k, 144),
        (sys::jambharrow_integer_dot_q5k, 176),
        (sys::jambharrow_canonical_dot_q4k_fused, 144),
        (sys::jambharrow_canonical_dot_q5k_fused, 176),
        (sys::jambharrow_q6k_fused_f32_dot, 210),
    ];

    #[test]
    fn short_rows_are_counted_in_blocks() {
        let x = [1.0; 4_096];
        for (dot, block) in DOTS {
            let row = |blocks, n| row_dot(dot, &x, &vec![0; blocks * block], n);
            // Weights that were packed for windows of 2,048 readings.
            assert_eq!(row(8, 4_096), Err(short(8, 16)));
            assert_eq!(row(8, 2_049), Err(short(8, 9)));
            assert_eq!(row(8, 2_048), Ok(0.0));
            assert_eq!(row(0, 1), Err(short(0, 1)));
            assert_eq!(row(1, 257), Err(short(1, 2)));
            assert_eq!(row(511, MOST_IN), Err(short(511, 512)));
        }
    }

    #[test]
    fn value_and_counts_are_written_where_they_are_to_be() {
        let (x, w) = ([1.0; 512], [0; 420]);
        for (dot, block) in DOTS {
            let ask = |readings, bytes, n| {
                let (mut values, mut counts) = ([7.0; 3], [7; 4]);
                let blocks = (&mut counts[1..3]).try_into().expect("two places");
                let number = number(dot, &x[..readings], &w[..bytes], n, &mut values[1], blocks);
                (number, values, counts)
            };
            let (two, no_value, no_counts) = (2 * block, [7.0; 3], [7; 4]);
            assert_eq!(ask(512, two, 512), (0, [7.0, 0.0, 7.0], no_counts));
            assert_eq!(ask(0, 0, 0), (0, [7.0, 0.0, 7.0], no_counts));
            assert_eq!(ask(0, 1, 1), (1, no_value, no_counts));
            assert_eq!(ask(512, two, 513), (3, no_value, [7, 2, 3, 7]));
            assert_eq!(ask(511, two, 512), (4, no_value, no_counts));
            assert_eq!(ask(0, 0, MOST_IN + 1), (6, no_value, no_counts));
        }
    }
}
