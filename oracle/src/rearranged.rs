//! Document 02's law of order on the compiled code, ours beside ours: the quants of a packed block are
//! moved inside each sub-block or run, and the activation quants, or the readings, of the same places
//! alike.
use crate::compare::Comparison;
use crate::held;
use crate::laws::held_to;
use crate::layer_cases;
use crate::layers::Layer;
use jambharrow::{Q8Block, Refusal};
use oracle::inputs::{row, Layout};
use oracle::random::Random;

/// How many dots or layers of each call the law is tried on.
const TRIED: u64 = 1 << 20;

/// How many of a block dot's refusals.
const REFUSED: u64 = 1 << 16;

/// The places of a block.
const PLACES: usize = 256;

/// How many places most rows have at most; one row in so many is of many blocks.
const SHORT: usize = 3 * PLACES;
const LONG_ONE_IN: u64 = 4_096;
const LONG: usize = 16 * PLACES;

/// A part of a quant: its byte in the block, the bit from which it stands there, and how many bits it
/// has.
type Part = (usize, usize, usize);

/// A part of no bits, for a quant that is in one.
const NONE: Part = (0, 0, 0);

/// Where each bit of a quant stands in a packed block, by the published layouts, and how many places
/// have one scale.
struct Quants {
    run: usize,
    parts: fn(usize) -> [Part; 2],
}

fn quants(layout: &Layout) -> Quants {
    match layout.bytes {
        144 => Quants {
            run: 32,
            parts: |place| [nibble(16, place), NONE],
        },
        176 => Quants {
            run: 32,
            parts: |place| [nibble(48, place), (16 + place % 32, place / 32, 1)],
        },
        210 => Quants {
            run: 16,
            parts: |place| {
                let (half, quarter) = (place / 128, place / 32 % 4);
                let low = 64 * half + place % 64;
                let high = 128 + 32 * half + place % 32;
                [(low, quarter / 2 * 4, 4), (high, 2 * quarter, 2)]
            },
        },
        bytes => panic!("no format of 256 values has blocks of {bytes} bytes"),
    }
}

/// The nibble of a place, of two sub-blocks to 32 bytes, the first of them low.
fn nibble(from: usize, place: usize) -> Part {
    (from + place / 64 * 32 + place % 32, place / 32 % 2 * 4, 4)
}

/// For each place of so many blocks the place from which it is filled.
type Order = Vec<usize>;

/// An order that moves places inside runs of `run` alone: of each run any order, the two channels of
/// an interleaved signal put together, or none.
fn order_in_runs(random: &mut Random, run: usize, blocks: usize) -> Order {
    let mut order = Vec::with_capacity(blocks * PLACES);
    for start in (0..blocks * PLACES).step_by(run) {
        let mut places: Vec<usize> = (0..run).collect();
        match random.below(4) {
            0 => places.sort_by_key(|place| (place % 2, *place)),
            1 => {}
            _ => shuffle(random, &mut places),
        }
        order.extend(places.iter().map(|place| start + place));
    }
    order
}

fn shuffle(random: &mut Random, places: &mut [usize]) {
    for last in (1..places.len()).rev() {
        places.swap(last, random.below(last + 1));
    }
}

/// The first blocks of `w`, as many as the order is of, with their quants moved; fewer bytes stay.
fn moved_weights(layout: &Layout, w: &[u8], order: &[usize]) -> Vec<u8> {
    let parts = quants(layout).parts;
    let mut moved = w.to_vec();
    if w.len() < order.len() / PLACES * layout.bytes {
        return moved;
    }
    for (to, &from) in order.iter().enumerate() {
        let (block, other) = (to / PLACES * layout.bytes, from / PLACES * layout.bytes);
        let (to, from) = (parts(to % PLACES), parts(from % PLACES));
        for ((byte, bit, width), (source, low, _)) in to.into_iter().zip(from) {
            let field = (1 << width) - 1;
            let value = w[other + source] >> low & field;
            moved[block + byte] = moved[block + byte] & !(field << bit) | value << bit;
        }
    }
    moved
}

/// The list with its first places moved, as many as the order has.
fn moved<T: Copy>(values: &[T], order: &[usize]) -> Vec<T> {
    let mut moved = values.to_vec();
    for (place, &from) in moved.iter_mut().zip(order) {
        *place = values[from];
    }
    moved
}

fn moved_block(block: &Q8Block, order: &[usize]) -> Q8Block {
    let qs = moved(block.qs(), order).try_into().expect("256 quants");
    Q8Block::from_parts(block.d(), qs, *block.bsums(), block.count())
}

/// What a block dot is asked: weights, a block, and n.
pub struct Asked {
    pub w: Vec<u8>,
    pub block: Q8Block,
    pub n: usize,
}

/// A block dot of ours.
type BlockDot = fn(&[u8], &Q8Block, usize) -> Result<f32, Refusal>;

/// The law of a block dot, of full blocks, and of what is refused; `full` and `refused` draw them.
pub fn of_block_dot(
    comparison: &mut Comparison,
    layout: &Layout,
    dot: BlockDot,
    full: impl Fn(&mut Random) -> Asked + Sync,
    refused: impl Fn(&mut Random) -> Asked + Sync,
) {
    let case = |number: u64, random: &mut Random, asked: Asked| {
        let Asked { w, block, n } = asked;
        let order = order_in_runs(random, quants(layout).run, 1);
        let other = dot(
            &moved_weights(layout, &w, &order),
            &moved_block(&block, &order),
            n,
        );
        held_to(dot(&w, &block, n), other, held::same, || {
            format!("n {n}, case {number}")
        })
    };
    comparison.cases("quants moved inside their runs", TRIED, |number| {
        let mut random = Random::new(number);
        let asked = full(&mut random);
        case(number, &mut random, asked)
    });
    comparison.cases(
        "quants moved, where 3, 15 or 7 is said",
        REFUSED,
        |number| {
            let mut random = Random::new(number);
            let asked = refused(&mut random);
            case(number, &mut random, asked)
        },
    );
}

/// A row dot of ours.
type RowDot = fn(&[f32], &[u8], usize) -> Result<f32, Refusal>;

/// The law of an integer row dot, whose full blocks are moved and whose last, where it is not full,
/// stays.
pub fn of_row_dot(
    comparison: &mut Comparison,
    layout: &Layout,
    dot: RowDot,
    weights: impl Fn(&mut Random, usize) -> Vec<u8> + Sync,
) {
    comparison.cases(
        "readings and quants moved inside their runs",
        TRIED,
        |number| {
            let mut random = Random::new(number);
            let most = if number % LONG_ONE_IN == 0 {
                LONG
            } else {
                SHORT
            };
            let n = random.below(most + 1);
            let x = row(&mut random, n);
            let w = weights(&mut random, n.div_ceil(PLACES));
            let order = order_in_runs(&mut random, quants(layout).run, n / PLACES);
            let (y, v) = (moved(&x, &order), moved_weights(layout, &w, &order));
            held_to(dot(&x, &w, n), dot(&y, &v, n), held::same, || {
                format!("n {n}, case {number}")
            })
        },
    );
}

/// The law of an integer layer, each of whose rows is moved alike; each of its outputs in its place.
pub fn of_layer(comparison: &mut Comparison, layer: &Layer) {
    comparison.cases(
        "readings and quants moved inside their runs",
        TRIED,
        |number| {
            let mut random = Random::new(number);
            let asked = layer_cases::of_few_blocks(layer, &mut random);
            let (x, w) = layer.inputs(&mut random, asked);
            let order = order_in_runs(
                &mut random,
                quants(&layer.layout).run,
                asked.sizes.in_feat / PLACES,
            );
            let y = by_rows(asked.sizes.batch, &order, |order| moved(&x, order));
            let v = by_rows(asked.sizes.out_feat, &order, |order| {
                moved_weights(&layer.layout, &w, order)
            });
            let filled = |x: &[f32], w: &[u8]| {
                let mut outputs = held::memory(asked.lengths.places);
                let said = layer.ours(x, w, &mut outputs, &mut [], asked.sizes);
                (said.map(|()| 0.0), outputs)
            };
            let ((said, outputs), (other, others)) = (filled(&x, &w), filled(&y, &v));
            let input = || format!("{asked:?}, case {number}");
            held_to(said, other, held::same, input)?;
            outputs
                .iter()
                .zip(&others)
                .try_fold(0, |values, (&output, &other)| {
                    Ok(values + held_to(Ok(output), Ok(other), held::same, input)?)
                })
        },
    );
}

/// What is moved where each of so many rows has the order of one.
fn by_rows<T>(rows: usize, order: &[usize], moved: impl Fn(&[usize]) -> T) -> T {
    let all: Order = (0..rows)
        .flat_map(|row| order.iter().map(move |place| row * order.len() + place))
        .collect();
    moved(&all)
}

#[cfg(test)]
mod tests {
    use super::*;
    use jambharrow::{
        canonical_dot_q4k_fused, dot_q4k_q8_block, integer_dot_q4k, quantize_block_q8,
    };
    use oracle::inputs::{trained_scale, Q4_K, Q5_K, Q6_K};
    use std::collections::HashSet;

    /// The order that puts two channels together inside runs.
    fn channels(run: usize) -> Order {
        let place = |i: usize| {
            if i < run / 2 {
                2 * i
            } else {
                2 * (i - run / 2) + 1
            }
        };
        (0..PLACES)
            .map(|i| i / run * run + place(i % run))
            .collect()
    }

    #[test]
    fn each_bit_of_a_quant_stands_at_one_place() {
        for (layout, bits) in [(Q4_K, 4), (Q5_K, 5), (Q6_K, 6)] {
            let parts = quants(&layout).parts;
            let places = (0..PLACES).flat_map(parts);
            let single = places
                .flat_map(|(byte, bit, width)| (bit..bit + width).map(move |bit| (byte, bit)));
            let single: HashSet<(usize, usize)> = single.collect();
            assert_eq!(single.len(), PLACES * bits);
            assert!(single
                .iter()
                .all(|&(byte, bit)| byte < layout.bytes && bit < 8));
        }
    }

    #[test]
    fn an_order_in_runs_has_each_place_once_and_in_its_run() {
        let mut random = Random::new(1);
        for run in [16, 32] {
            let order = order_in_runs(&mut random, run, 3);
            let places: HashSet<usize> = order.iter().copied().collect();
            assert_eq!(places.len(), 3 * PLACES);
            assert!(order
                .iter()
                .enumerate()
                .all(|(to, from)| to / run == from / run));
        }
    }

    /// The row that stands beside the law: 2, 1, 1 at three places, and 2^23, 1.0, 1.0.
    fn worked(places: [usize; 3]) -> (Vec<f32>, Vec<u8>) {
        let (mut x, mut w) = (vec![0.0; PLACES], vec![0; Q4_K.bytes]);
        (w[1], w[4]) = (0x3C, 1);
        for (place, (quant, reading)) in
            places
                .into_iter()
                .zip([(2, 8_388_608.0), (1, 1.0), (1, 1.0)])
        {
            (w[16 + place], x[place]) = (quant, reading);
        }
        (x, w)
    }

    #[test]
    fn the_fused_dot_tells_the_worked_row_and_the_integer_dot_does_not() {
        let ((x, w), (y, v)) = (worked([0, 4, 12]), worked([0, 2, 6]));
        let order = channels(32);
        assert_eq!(
            (moved(&x, &order), moved_weights(&Q4_K, &w, &order)),
            (y.clone(), v.clone())
        );
        let bits = |x: &[f32], w: &[u8]| canonical_dot_q4k_fused(x, w, PLACES).map(f32::to_bits);
        assert_eq!(bits(&x, &w), Ok(0x4B80_0001));
        assert_eq!(bits(&y, &v), Ok(0x4B80_0000));
        assert_eq!(
            integer_dot_q4k(&x, &w, PLACES),
            integer_dot_q4k(&y, &v, PLACES)
        );
    }

    /// How many of 1,000 blocks of readings have another dot once their quants are moved so.
    fn told(order_of: impl Fn(&mut Random) -> [Order; 2]) -> usize {
        let told = (0..1_000).filter(|&number| {
            let mut random = Random::new(number);
            let w = Q4_K.blocks(&mut random, 1, trained_scale);
            let x: Vec<f32> = (0..PLACES)
                .map(|_| oracle::inputs::reading(&mut random))
                .collect();
            let block = quantize_block_q8(&x).expect("256 readings");
            let [weights, readings] = order_of(&mut random);
            let mut qs = moved_block(&block, &readings);
            let sums = std::array::from_fn(|j| {
                qs.qs()[32 * j..][..32].iter().map(|&q| i32::from(q)).sum()
            });
            qs = Q8Block::from_parts(qs.d(), *qs.qs(), sums, qs.count());
            dot_q4k_q8_block(&w, &block, PLACES)
                != dot_q4k_q8_block(&moved_weights(&Q4_K, &w, &weights), &qs, PLACES)
        });
        told.count()
    }

    #[test]
    fn another_order_of_one_side_or_across_sub_blocks_is_told() {
        let inside = |random: &mut Random| order_in_runs(random, 32, 1);
        let alike = |order: Order| [order.clone(), order];
        assert_eq!(told(|random| alike(inside(random))), 0);
        assert!(told(|random| [inside(random), inside(random)]) > 900);
        let across = |random: &mut Random| order_in_runs(random, 64, 1);
        assert!(told(|random| alike(across(random))) > 500);
    }
}
