//! Activation blocks: up to 256 readings become small integers with one float scale, and a dot over
//! them is a sum of whole numbers, which no order of adding changes.
use crate::refusal::{counted_answer, done, Refusal};
use crate::row_dot::row_dot;
use crate::sys::{self, BlockDot, Size};

/// An activation block, which knows how many readings it was made of. [`quantize_block_q8`] makes it,
/// and its parts are only read from there on, so that they stay those of one block; one that was
/// made elsewhere comes in by [`Q8Block::from_parts`].
#[derive(Debug, Clone, Copy, PartialEq)]
pub struct Q8Block {
    d: f32,
    qs: [i8; 256],
    bsums: [i32; 8],
    count: usize,
}

impl Q8Block {
    /// The block of these parts, as they are: a scale, quants, sums of the quants, 32 to each, and how
    /// many readings they were made of. Nothing is looked at here. A dot refuses a block whose parts
    /// do not fit: as [`Refusal::WrongCount`] a `count` that is not the dot's n, one above 256, and a
    /// quant from place `count` on that is not 0; as [`Refusal::WrongSums`] other sums than those of
    /// the quants, where it uses them.
    ///
    /// ```
    /// use jambharrow::{dot_q6k_q8_block, quantize_block_q8, Q8Block, Refusal};
    ///
    /// let made = quantize_block_q8(&[127.0; 256])?;
    /// let cut = Q8Block::from_parts(made.d(), *made.qs(), *made.bsums(), 100);
    /// assert_eq!(dot_q6k_q8_block(&[0; 210], &cut, 100), Err(Refusal::WrongCount));
    /// # Ok::<(), jambharrow::Refusal>(())
    /// ```
    #[inline]
    pub const fn from_parts(d: f32, qs: [i8; 256], bsums: [i32; 8], count: usize) -> Q8Block {
        Q8Block {
            d,
            qs,
            bsums,
            count,
        }
    }

    /// The scale: the largest magnitude of the readings over 127.
    #[inline]
    pub const fn d(&self) -> f32 {
        self.d
    }

    /// The quants of the readings, and 0 past them.
    #[inline]
    pub const fn qs(&self) -> &[i8; 256] {
        &self.qs
    }

    /// The sums of the quants, 32 to each.
    #[inline]
    pub const fn bsums(&self) -> &[i32; 8] {
        &self.bsums
    }

    /// How many readings it was made of: the n for which a dot answers.
    #[inline]
    pub const fn count(&self) -> usize {
        self.count
    }
}

/// The block of at most 256 readings. It refuses more as [`Refusal::ReadingsShort`].
///
/// ```
/// let block = jambharrow::quantize_block_q8(&[127.0, -63.5, 0.0])?;
/// assert_eq!(block.d(), 1.0);
/// assert_eq!(block.qs()[..4], [127, -64, 0, 0]);
/// assert_eq!(block.bsums()[0], 63);
/// assert_eq!(block.count(), 3);
/// # Ok::<(), jambharrow::Refusal>(())
/// ```
#[inline]
pub fn quantize_block_q8(x: &[f32]) -> Result<Q8Block, Refusal> {
    let (mut d, mut qs, mut bsums, mut count) = (0.0, [0; 256], [0; 8], 0);
    quantize_block_q8_into(x, &mut d, &mut qs, &mut bsums, &mut count)?;
    Ok(Q8Block::from_parts(d, qs, bsums, count as usize))
}

/// Does what [`quantize_block_q8`] does, and puts the block's parts where the caller has room for
/// them; the count has 64 bits, as in C. A refusal writes none of them.
#[inline]
pub fn quantize_block_q8_into(
    x: &[f32],
    d: &mut f32,
    qs: &mut [i8; 256],
    bsums: &mut [i32; 8],
    count: &mut u64,
) -> Result<(), Refusal> {
    let x_len = x.len() as Size;
    // SAFETY: the pointer and the length are a slice's, and each place that is written is lent to
    // this call alone.
    done(unsafe { sys::jambharrow_quantize_block_q8(x.as_ptr(), x_len, d, qs, bsums, count) })
}

#[inline]
fn block_dot(dot: BlockDot, w: &[u8], xq: &Q8Block, n: usize) -> Result<f32, Refusal> {
    counted_answer(|value, blocks| number(dot, w, xq, n, value, blocks))
}

/// The number that the call returns.
#[inline]
fn number(
    dot: BlockDot,
    w: &[u8],
    xq: &Q8Block,
    n: usize,
    value: &mut f32,
    blocks: &mut [Size; 2],
) -> u32 {
    let Q8Block { d, qs, bsums, .. } = xq;
    let [w_len, count, n] = [w.len(), xq.count, n].map(|size| size as Size);
    // SAFETY: the pointer and the length are a slice's, each of the block's parts is as long as the
    // call takes it to be, and what is written is lent to this call alone.
    unsafe { dot(w.as_ptr(), w_len, *d, qs, bsums, count, n, value, blocks) }
}

/// The dot of the Q4_K block at the front of `w` and an activation block: (d * dx) * A less
/// (dmin * dx) * M, where A counts the places below `n`, above 256 taken as 256, and M uses all
/// eight sums. There is no short cut at `n` = 0. It refuses, in this order, as
/// [`Refusal::WeightsShort`] fewer than 144 bytes, as [`Refusal::WrongCount`] an `n` that is not the
/// block's count, or a quant past the count that is not 0, and as [`Refusal::WrongSums`] a block
/// whose sums are not the sums of its 32s; quant.rs answers the last two.
///
/// ```
/// use jambharrow::{dot_q4k_q8_block, quantize_block_q8, Refusal};
///
/// let block = quantize_block_q8(&[127.0; 100])?;
/// assert_eq!(dot_q4k_q8_block(&[0; 144], &block, block.count())?, 0.0);
/// assert_eq!(dot_q4k_q8_block(&[0; 144], &block, 256), Err(Refusal::WrongCount));
/// # Ok::<(), jambharrow::Refusal>(())
/// ```
#[inline]
pub fn dot_q4k_q8_block(w: &[u8], xq: &Q8Block, n: usize) -> Result<f32, Refusal> {
    block_dot(sys::jambharrow_dot_q4k_q8_block, w, xq, n)
}

/// Does with the Q5_K block at the front of `w`, of 176 bytes, what [`dot_q4k_q8_block`] does with
/// its own, and refuses as it does.
///
/// ```
/// // d is 1, the first scale 2, and each whole number its fifth bit alone, 16.
/// let mut w = [0; 176];
/// w[..2].copy_from_slice(&[0x00, 0x3C]);
/// w[4] = 2;
/// w[16..48].fill(0xFF);
/// let block = jambharrow::quantize_block_q8(&[127.0; 256])?;
/// assert_eq!(jambharrow::dot_q5k_q8_block(&w, &block, 256)?, 32.0 * 127.0 * 32.0);
/// # Ok::<(), jambharrow::Refusal>(())
/// ```
#[inline]
pub fn dot_q5k_q8_block(w: &[u8], xq: &Q8Block, n: usize) -> Result<f32, Refusal> {
    block_dot(sys::jambharrow_dot_q5k_q8_block, w, xq, n)
}

/// The dot of the Q6_K block at the front of `w` and an activation block: (d * dx) * B, where B
/// counts the places below `n`, above 256 taken as 256. It looks at no sums. It refuses, in this
/// order, as [`Refusal::WeightsShort`] fewer than 210 bytes, and as [`Refusal::WrongCount`] what
/// [`dot_q4k_q8_block`] refuses so.
#[inline]
pub fn dot_q6k_q8_block(w: &[u8], xq: &Q8Block, n: usize) -> Result<f32, Refusal> {
    block_dot(sys::jambharrow_dot_q6k_q8_block, w, xq, n)
}

/// The dot of the first `n` readings and the first `n` weights of the Q4_K blocks in `w_q4k`: each
/// 256 readings are made an activation block, and the dots of the blocks meet in the tree of
/// [`canonical_combine`](crate::canonical_combine). It refuses as [`Refusal::TooLarge`] an `n` over
/// [`MOST_IN`](crate::MOST_IN), and as [`Refusal::NotWholeBlocks`] bytes that are not whole blocks;
/// then `n` = 0 is answered with +0.0; then it refuses, in this order, as [`Refusal::WeightsShort`]
/// blocks of fewer than `n` weights, which quant.rs adds up, and as [`Refusal::ReadingsShort`] fewer
/// than `n` readings.
#[inline]
pub fn integer_dot_q4k(x: &[f32], w_q4k: &[u8], n: usize) -> Result<f32, Refusal> {
    row_dot(sys::jambharrow_integer_dot_q4k, x, w_q4k, n)
}

/// Does with Q5_K blocks what [`integer_dot_q4k`] does with its own, by [`dot_q5k_q8_block`].
#[inline]
pub fn integer_dot_q5k(x: &[f32], w_q5k: &[u8], n: usize) -> Result<f32, Refusal> {
    row_dot(sys::jambharrow_integer_dot_q5k, x, w_q5k, n)
}

#[cfg(test)]
mod tests {
    use super::*;
    use crate::refusal::short;
    use crate::MOST_IN;

    /// The integer dot of a row.
    type IntegerDot = fn(&[f32], &[u8], usize) -> Result<f32, Refusal>;

    /// A Q4_K block: d and dmin 1, the first scale and the first minimum as given, each nibble 1.
    fn q4_k(scale: u8, minimum: u8) -> [u8; 144] {
        let mut block = [0; 144];
        block[..4].copy_from_slice(&[0x00, 0x3C, 0x00, 0x3C]);
        block[4] = scale;
        block[8] = minimum;
        block[16..].fill(0x11);
        block
    }

    /// The same in Q5_K, where each whole number is 17.
    fn q5_k(scale: u8, minimum: u8) -> [u8; 176] {
        let mut block = [0; 176];
        block[..16].copy_from_slice(&q4_k(scale, minimum)[..16]);
        block[16..48].fill(0xFF);
        block[48..].fill(0x11);
        block
    }

    /// The block of so many readings of 127.
    fn of_127(count: usize) -> Q8Block {
        quantize_block_q8(&vec![127.0; count]).expect("a block of readings")
    }

    /// The block of 256 readings of 127.
    fn all_127() -> Q8Block {
        of_127(256)
    }

    #[test]
    fn a_block_of_readings() {
        assert_eq!(
            all_127(),
            Q8Block::from_parts(1.0, [127; 256], [32 * 127; 8], 256)
        );
        let block = quantize_block_q8(&[]).expect("no readings are a block");
        assert_eq!(block, Q8Block::from_parts(0.0, [0; 256], [0; 8], 0));
        assert_eq!(block.d().to_bits(), 0);
        let block = of_127(33);
        assert_eq!(block.qs()[..33], [127; 33]);
        assert_eq!(block.qs()[33..], [0; 223]);
        assert_eq!(block.bsums()[..3], [32 * 127, 127, 0]);
        assert_eq!(block.count(), 33);
    }

    #[test]
    fn the_bench_card() {
        let x = [0x0080_0000, 0x0000_0200, 0].map(f32::from_bits);
        let block = quantize_block_q8(&x).expect("three readings are a block");
        assert_eq!(block.qs()[..4], [127, 127, 0, 0]);
        // The scale is 1, so the scaled reading is just under 0.5.
        let x = [127.0, f32::from_bits(0x3EFF_FFFF)];
        let block = quantize_block_q8(&x).expect("two readings are a block");
        assert_eq!(block.qs()[..2], [127, 1]);
    }

    #[test]
    fn more_than_256_readings_write_nothing() {
        let mut d = 7.0;
        let mut qs = [7; 256];
        let mut bsums = [7; 8];
        let mut count = 7;
        let said = quantize_block_q8_into(&[1.0; 257], &mut d, &mut qs, &mut bsums, &mut count);
        assert_eq!(said, Err(Refusal::ReadingsShort));
        assert_eq!((d, qs, bsums, count), (7.0, [7; 256], [7; 8], 7));
    }

    /// The three dots, each with a block whose first scale is 1, and the value that a first quant of
    /// 1 then has.
    fn dots() -> [(BlockDot, Vec<u8>, f32); 3] {
        let mut q6_k = vec![0; 210];
        // The first scale 1, d 1, each quant 0 - 32.
        q6_k[192] = 1;
        q6_k[209] = 0x3C;
        [
            (sys::jambharrow_dot_q4k_q8_block, q4_k(1, 0).into(), 1.0),
            (sys::jambharrow_dot_q5k_q8_block, q5_k(1, 0).into(), 17.0),
            (sys::jambharrow_dot_q6k_q8_block, q6_k, -32.0),
        ]
    }

    #[test]
    fn places_below_n_and_all_eight_sums() {
        let sum = 32.0 * 127.0;
        let w = q4_k(3, 1);
        let dot = |count, n| dot_q4k_q8_block(&w, &of_127(count), n);
        assert_eq!(dot(256, 256), Ok(3.0 * sum - sum));
        assert_eq!(dot(256, 1_000), dot(256, 256));
        assert_eq!(dot(256, usize::MAX), dot(256, 256));
        assert_eq!(dot(16, 16), Ok(1.5 * sum - 0.5 * sum));
        assert_eq!(dot(0, 0), Ok(0.0));

        let w = q5_k(3, 1);
        let dot = |count, n| dot_q5k_q8_block(&w, &of_127(count), n);
        assert_eq!(dot(256, 256), Ok(51.0 * sum - sum));
        assert_eq!(dot(256, 1_000), dot(256, 256));
        assert_eq!(dot(16, 16), Ok(25.5 * sum - 0.5 * sum));
        assert_eq!(dot(0, 0), Ok(0.0));
    }

    #[test]
    fn a_dot_answers_for_as_many_places_as_there_were_readings() {
        for (dot, w, first) in dots() {
            for count in [0, 1, 2, 15, 16, 17, 31, 32, 33, 255, 256] {
                let block = of_127(count);
                for n in (0..300).chain([usize::MAX]) {
                    // A run of 16 has one scale in Q6_K, and a sub-block of 32 in the others.
                    let run = if first < 0.0 { 16 } else { 32 };
                    let wanted = if n.min(256) == count {
                        Ok(first * 127.0 * count.min(run) as f32)
                    } else {
                        Err(Refusal::WrongCount)
                    };
                    assert_eq!(block_dot(dot, &w, &block, n), wanted, "{count} and {n}");
                }
            }
        }
    }

    #[test]
    fn a_count_above_256_is_refused_whatever_n_is() {
        let Q8Block { d, qs, bsums, .. } = all_127();
        for (dot, w, _) in dots() {
            for count in [257, 300, 512, usize::MAX] {
                let block = Q8Block::from_parts(d, qs, bsums, count);
                for n in [0, 256, 257, count] {
                    let said = block_dot(dot, &w, &block, n);
                    assert_eq!(said, Err(Refusal::WrongCount), "{count} and {n}");
                }
            }
        }
    }

    #[test]
    fn a_quant_past_the_count_is_refused_wherever_it_is() {
        for count in [0, 1, 31, 32, 100, 255] {
            let Q8Block { d, qs, .. } = of_127(count);
            for place in count..256 {
                let mut qs = qs;
                qs[place] = [1, -1, -128, 127][place % 4];
                // Its sums are right.
                let bsums = sums_of(&qs);
                let block = Q8Block::from_parts(d, qs, bsums, count);
                for (dot, w, _) in dots() {
                    let said = block_dot(dot, &w, &block, count);
                    assert_eq!(said, Err(Refusal::WrongCount), "{count} and {place}");
                }
                let full = Q8Block::from_parts(d, qs, bsums, 256);
                assert!(dot_q4k_q8_block(&q4_k(1, 0), &full, 256).is_ok());
            }
        }
    }

    /// The sums of each 32 of the quants.
    fn sums_of(qs: &[i8; 256]) -> [i32; 8] {
        std::array::from_fn(|j| qs[32 * j..32 * j + 32].iter().map(|&q| i32::from(q)).sum())
    }

    #[test]
    fn the_other_block_dot_looks_at_no_sums() {
        let mut w = [0; 210];
        // The first scale -2, d 1, each quant 0 - 32.
        w[192] = 0xFE;
        w[209] = 0x3C;
        let Q8Block { d, qs, .. } = all_127();
        let block = Q8Block::from_parts(d, qs, [0; 8], 256);
        assert_eq!(dot_q6k_q8_block(&w, &block, 256), Ok(16.0 * 64.0 * 127.0));
        assert_eq!(dot_q6k_q8_block(&w, &of_127(2), 2), Ok(2.0 * 64.0 * 127.0));
        assert_eq!(dot_q6k_q8_block(&w[1..], &block, 2), Err(short(0, 1)));
    }

    #[test]
    fn short_weights_then_a_wrong_count_then_wrong_sums() {
        let Q8Block { d, qs, bsums, .. } = all_127();
        let mut wrong_sums = bsums;
        wrong_sums[7] += 65_536;
        let wrong = Q8Block::from_parts(d, qs, wrong_sums, 256);
        let q4_k = q4_k(1, 0);
        assert_eq!(
            dot_q4k_q8_block(&q4_k, &wrong, 256),
            Err(Refusal::WrongSums)
        );
        assert_eq!(
            dot_q4k_q8_block(&q4_k, &wrong, 255),
            Err(Refusal::WrongCount)
        );
        assert_eq!(dot_q4k_q8_block(&q4_k[1..], &wrong, 255), Err(short(0, 1)));
        let q5_k = q5_k(1, 0);
        assert_eq!(
            dot_q5k_q8_block(&q5_k, &wrong, 256),
            Err(Refusal::WrongSums)
        );
        assert_eq!(
            dot_q5k_q8_block(&q5_k, &wrong, 255),
            Err(Refusal::WrongCount)
        );
        assert_eq!(dot_q5k_q8_block(&q5_k[1..], &wrong, 255), Err(short(0, 1)));
        let right = all_127();
        assert_eq!(
            dot_q6k_q8_block(&[0; 210], &right, 255),
            Err(Refusal::WrongCount)
        );
        assert_eq!(dot_q6k_q8_block(&[0; 209], &right, 255), Err(short(0, 1)));
    }

    #[test]
    fn value_and_counts_are_written_where_they_are_to_be() {
        let block = all_127();
        let Q8Block { d, qs, bsums, .. } = block;
        let other_count = Q8Block::from_parts(d, qs, bsums, 255);
        let other_sums = Q8Block::from_parts(d, qs, [0; 8], 256);
        let ask = |dot: BlockDot, w: &[u8], block: &Q8Block| {
            let (mut values, mut counts) = ([7.0; 3], [7; 4]);
            let blocks = (&mut counts[1..3]).try_into().expect("two places");
            let number = number(dot, w, block, 256, &mut values[1], blocks);
            (number, values, counts)
        };
        let (no_value, no_counts, missing) = ([7.0; 3], [7; 4], [7, 0, 1, 7]);
        for (dot, w, first) in dots() {
            let places = if first < 0.0 { 16.0 } else { 32.0 };
            let answered = [7.0, first * 127.0 * places, 7.0];
            assert_eq!(ask(dot, &w, &block), (0, answered, no_counts));
            assert_eq!(ask(dot, &w, &other_count), (15, no_value, no_counts));
            assert_eq!(ask(dot, &w[1..], &other_count), (3, no_value, missing));
            let wanted = match first < 0.0 {
                true => (0, answered, no_counts),
                false => (7, no_value, no_counts),
            };
            assert_eq!(ask(dot, &w, &other_sums), wanted);
        }
    }

    #[test]
    fn a_row_in_whole_numbers() {
        let w = [q4_k(1, 0), q4_k(2, 0)].concat();
        let x = [127.0; 257];
        assert_eq!(integer_dot_q4k(&x, &w, 257), Ok(32.0 * 127.0 + 2.0 * 127.0));
        assert_eq!(integer_dot_q4k(&x, &w, 1), Ok(127.0));
        let w = [q5_k(1, 0), q5_k(2, 0)].concat();
        let both = 17.0 * (32.0 * 127.0 + 2.0 * 127.0);
        assert_eq!(integer_dot_q5k(&x, &w, 257), Ok(both));
        assert_eq!(integer_dot_q5k(&x, &w, 1), Ok(17.0 * 127.0));
    }

    #[test]
    fn refusals_of_a_row_come_in_their_order() {
        let x = [1.0; 257];
        let dots: [(IntegerDot, &[u8]); 2] = [
            (integer_dot_q4k, &q4_k(1, 0)),
            (integer_dot_q5k, &q5_k(1, 0)),
        ];
        for (dot, w) in dots {
            let dot = |w: &[u8], n| dot(&x, w, n);
            assert_eq!(dot(&w[1..], MOST_IN + 1), Err(Refusal::TooLarge));
            assert_eq!(dot(&w[1..], 0), Err(Refusal::NotWholeBlocks));
            assert_eq!(dot(w, 0).map(f32::to_bits), Ok(0));
            assert_eq!(dot(w, 258), Err(short(1, 2)));
            assert_eq!(dot(&[w, w].concat(), 258), Err(Refusal::ReadingsShort));
        }
    }
}
