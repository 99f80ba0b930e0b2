//! Activation blocks, and the integer dots over them.
use crate::calls::Call;
use crate::compare::{Compared, Comparison, Difference};
use crate::forged_blocks::{self, sums_of, Asked, Kind};
use crate::held;
use crate::q5_k;
use crate::rearranged;
use crate::row_dots::RowDot;
use crate::sample::{count, floats, Records};
use jambharrow::{Q8Block, Refusal};
use oracle::inputs::{
    self, any_bits, any_float, any_scale, row, set_scale, trained_scale, Draw, Layout, SCALES,
};
use oracle::ops::quant;
use oracle::random::Random;

pub const QUANTIZE_BLOCK_Q8: Call = Call {
    name: "quantize_block_q8",
    compare: compare_quantize_block_q8,
    sample: sample_quantize_block_q8,
};

pub const DOT_Q4K_Q8_BLOCK: Call = Call {
    name: "dot_q4k_q8_block",
    compare: |comparison| {
        Q4_K.compare(comparison);
        Q4_K.compare_orders(comparison);
    },
    sample: |records| Q4_K.sample(records),
};

pub const DOT_Q6K_Q8_BLOCK: Call = Call {
    name: "dot_q6k_q8_block",
    compare: |comparison| {
        Q6_K.compare(comparison);
        Q6_K.compare_orders(comparison);
    },
    sample: |records| Q6_K.sample(records),
};

pub const INTEGER_DOT_Q4K: Call = Call {
    name: "integer_dot_q4k",
    compare: |comparison| {
        INTEGER_Q4_K.compare(comparison);
        rearranged::of_row_dot(
            comparison,
            &INTEGER_Q4_K.layout,
            INTEGER_Q4_K.ours,
            |random, blocks| INTEGER_Q4_K.weights(random, blocks),
        );
    },
    sample: |records| INTEGER_Q4_K.sample(records),
};

pub const DOT_Q5K_Q8_BLOCK: Call = Call {
    name: "dot_q5k_q8_block",
    compare: |comparison| {
        Q5_K.compare(comparison);
        Q5_K.compare_orders(comparison);
    },
    sample: |records| Q5_K.sample(records),
};

pub const INTEGER_DOT_Q5K: Call = Call {
    name: "integer_dot_q5k",
    compare: |comparison| {
        INTEGER_Q5_K.compare(comparison);
        rearranged::of_row_dot(
            comparison,
            &INTEGER_Q5_K.layout,
            INTEGER_Q5_K.ours,
            |random, blocks| INTEGER_Q5_K.weights(random, blocks),
        );
    },
    sample: |records| INTEGER_Q5_K.sample(records),
};

const Q4_K: BlockDot = BlockDot {
    layout: inputs::Q4_K,
    kind: Kind::WithMinimums,
    other: quant::dot_q4k_q8_block,
    ours: jambharrow::dot_q4k_q8_block,
};

const Q6_K: BlockDot = BlockDot {
    layout: inputs::Q6_K,
    kind: Kind::WithoutMinimums,
    other: quant::dot_q6k_q8_block,
    ours: jambharrow::dot_q6k_q8_block,
};

const INTEGER_Q4_K: RowDot = RowDot {
    layout: inputs::Q4_K,
    other: quant::integer_dot_q4k,
    ours: jambharrow::integer_dot_q4k,
    adds_up_short_rows: true,
};

const Q5_K: BlockDot = BlockDot {
    layout: inputs::Q5_K,
    kind: Kind::WithMinimums,
    other: q5_k::block_dot,
    ours: jambharrow::dot_q5k_q8_block,
};

const INTEGER_Q5_K: RowDot = RowDot {
    layout: inputs::Q5_K,
    other: q5_k::integer_row_dot,
    ours: jambharrow::integer_dot_q5k,
    adds_up_short_rows: false,
};

/// The readings of a block at most.
const VALUES: usize = 256;

fn compare_quantize_block_q8(comparison: &mut Comparison) {
    comparison.cases("blocks of floats of every class", 1 << 18, |number| {
        quantize_case(&row(&mut Random::new(number), VALUES))
    });
    comparison.cases("blocks of any bits", 1 << 16, |number| {
        let mut random = Random::new(number);
        let block: Vec<f32> = (0..VALUES).map(|_| any_bits(&mut random)).collect();
        quantize_case(&block)
    });
    comparison.cases("each count of readings", 64 * 260, |number| {
        quantize_case(&row(&mut Random::new(number), number as usize % 260))
    });
    comparison.cases("many readings too many", 8, |number| {
        quantize_case(&row(&mut Random::new(number), 131_071 + number as usize))
    });
}

/// Why document 01 says no to a block of so many readings.
fn quantize_refusal(readings: usize) -> Option<Refusal> {
    (readings > VALUES).then_some(Refusal::ReadingsShort)
}

/// Holds ours to the Rust and to document 01, and the count to the readings there are. Each of the
/// block's parts is a part of a larger memory, no other place of which may change.
fn quantize_case(x: &[f32]) -> Compared {
    let input = |part: &str| {
        let bits: Vec<u32> = x.iter().take(VALUES).map(|float| float.to_bits()).collect();
        format!("{part}of {} readings {bits:08X?}", x.len())
    };
    let before = (
        held::memory(3),
        held::signed_bytes(VALUES + 2),
        held::whole_numbers(10),
        held::counts(3),
    );
    let (mut d, mut qs, mut bsums, mut count) = before.clone();
    let ours = jambharrow::quantize_block_q8_into(
        x,
        &mut d[1],
        (&mut qs[1..=VALUES]).try_into().expect("256 places"),
        (&mut bsums[1..=8]).try_into().expect("eight places"),
        &mut count[1],
    );
    let refusal = quantize_refusal(x.len());
    held::outcome(refusal, ours, || input(""))?;
    let made = refusal.is_none().then(|| quant::quantize_block_q8(x));
    let made = made.map_or_else(Default::default, |made| {
        let counted = vec![x.len() as u64];
        (vec![made.d], made.qs.to_vec(), made.bsums.to_vec(), counted)
    });
    let places = held::places(1, &made.0, &before.0, &d, || input("d "))?
        + held::places(1, &made.1, &before.1, &qs, || input("qs "))?
        + held::places(1, &made.2, &before.2, &bsums, || input("bsums "))?
        + held::places(1, &made.3, &before.3, &count, || input("count "))?;
    Ok(places)
}

/// The block that ours answers beside a refusal.
const NONE: Q8Block = Q8Block::from_parts(0.0, [0; VALUES], [0; 8], 0);

/// Blocks of every class, the bench card's, each count around a sub-block's and a block's, and one
/// reading too many. A payload is how many readings there are, the readings, the refusal's number,
/// and the block, which is of zeros where there is none.
fn sample_quantize_block_q8(records: &mut Records) {
    let mut random = Random::new(VALUES as u64);
    let mut store = |x: &[f32]| {
        let refusal = quantize_refusal(x.len());
        let block = match refusal {
            None => of_rust(x),
            Some(_) => NONE,
        };
        let [scale, quants, sums, readings] = stored(&block);
        records.push(&[
            &count(x.len()),
            &floats(x),
            &count(refusal.map_or(0, |refusal| refusal.number() as usize)),
            &scale,
            &quants,
            &sums,
            &readings,
        ]);
    };
    store(&[0x0080_0000, 0x0000_0200, 0].map(f32::from_bits));
    store(&[127.0, f32::from_bits(0x3EFF_FFFF)]);
    for len in [0, 1, 31, 32, 33, 255, 257] {
        store(&row(&mut random, len));
    }
    for _ in 0..16 {
        store(&row(&mut random, VALUES));
    }
}

/// A block as it stands in a payload: its scale, its quants, a byte each, its sums, each as a
/// little-endian i32, and its count.
fn stored(block: &Q8Block) -> [Vec<u8>; 4] {
    let quants = block.qs().map(|quant| quant as u8);
    let sums = block.bsums().iter().flat_map(|sum| sum.to_le_bytes());
    [
        floats(&[block.d()]),
        quants.to_vec(),
        sums.collect(),
        count(block.count()).to_vec(),
    ]
}

/// The Rust's block of readings, as ours, with their count.
fn of_rust(x: &[f32]) -> Q8Block {
    let quant::Q8Block { d, qs, bsums } = quant::quantize_block_q8(x);
    Q8Block::from_parts(d, qs, bsums, x.len())
}

/// The dot of a packed block and an activation block, on both sides. The other side is the Rust, or
/// the reference of Q5_K; where documents 01 and 02 say no, it is they.
struct BlockDot {
    layout: Layout,
    kind: Kind,
    other: fn(&[u8], &quant::Q8Block, usize) -> f32,
    ours: fn(&[u8], &Q8Block, usize) -> Result<f32, Refusal>,
}

/// How the scales of a packed block are drawn.
const BLOCK_SCALES: [Draw<u16>; 3] = [trained_scale, SCALES[2], any_scale];

/// How many places count: around each boundary that the Rust's loops have, and past a block.
const COUNTS: [usize; 20] = [
    0, 1, 15, 16, 17, 31, 32, 33, 63, 64, 65, 127, 128, 129, 191, 192, 193, 255, 256, 257,
];

impl BlockDot {
    fn compare(&self, comparison: &mut Comparison) {
        let Layout { bytes, scales, .. } = self.layout;
        comparison.cases("blocks of readings of every class", 1 << 20, |number| {
            let mut random = Random::new(number);
            let block = of_readings(&mut random);
            let n = places(&mut random, &block);
            self.case(&self.packed(&mut random), &block, n)
        });
        comparison.cases("blocks of any quants and scale", 1 << 20, |number| {
            let mut random = Random::new(number);
            let block = of_any_quants(&mut random);
            let n = places(&mut random, &block);
            self.case(&self.packed(&mut random), &block, n)
        });
        let counts = (COUNTS.len() as u64 + 1) * 4_096;
        comparison.cases("n around each boundary, and the most", counts, |number| {
            let mut random = Random::new(number);
            let n = COUNTS.get(number as usize / 4_096);
            let n = n.copied().unwrap_or(usize::MAX);
            let block = of_rust(&row(&mut random, n.min(VALUES)));
            self.case(&self.packed(&mut random), &block, n)
        });
        comparison.cases("every half as a scale", 1 << 16, |half| {
            let mut random = Random::new(half);
            let block = of_readings(&mut random);
            let mut packed = self.packed(&mut random);
            set_scale(&mut packed, scales[random.below(scales.len())], half as u16);
            self.case(&packed, &block, block.count())
        });
        comparison.cases("fewer bytes, and more", 2 * bytes as u64, |number| {
            let mut random = Random::new(number);
            let packed = [self.packed(&mut random), self.packed(&mut random)].concat();
            let block = of_readings(&mut random);
            self.case(&packed[..number as usize], &block, block.count())
        });
        let what = "every n below 300 beside any block, all of which the other side answers";
        comparison.cases(what, 300 * 1_024, |number| {
            let mut random = Random::new(number);
            let block = of_readings(&mut random);
            self.case(&self.packed(&mut random), &block, number as usize % 300)
        });
        let what = "forged blocks: count, quants past it, sums, each alone and together, \
                    with short weights too";
        comparison.cases(what, 1 << 21, |number| {
            let mut random = Random::new(number);
            let block = [of_readings, of_any_quants][random.below(2)](&mut random);
            let packed = self.packed(&mut random);
            let forged = forged_blocks::of(&mut random, &block, packed.len());
            let wanted = forged.refusal(self.kind, &self.layout);
            let Asked { block, bytes, n } = forged.asked;
            let judged = forged_blocks::judged(self.kind, &self.layout, bytes, &block, n);
            if judged != wanted {
                return Err(Difference {
                    input: format!("{bytes} bytes, {block:?}, n {n}: the documents"),
                    wanted: format!("{wanted:?} by how it was forged"),
                    ours: format!("{judged:?} by what it is"),
                });
            }
            self.case(&packed[..bytes], &block, n)
        });
    }

    /// The law of order.
    fn compare_orders(&self, comparison: &mut Comparison) {
        let full = |random: &mut Random| rearranged::Asked {
            w: self.packed(random),
            block: [full_of_readings, full_of_any_quants][random.below(2)](random),
            n: VALUES + [0, random.below(VALUES)][random.below(2)],
        };
        let refused = |random: &mut Random| {
            let mut asked = full(random);
            match random.below(3) {
                0 => asked.w.truncate(random.below(self.layout.bytes)),
                1 => asked.block = with_count(&asked.block, random.below(VALUES)),
                _ => asked.block = with_sum(&asked.block, random.below(8), 1),
            }
            asked
        };
        rearranged::of_block_dot(comparison, &self.layout, self.ours, full, refused);
    }

    /// A packed block.
    fn packed(&self, random: &mut Random) -> Vec<u8> {
        let scale = BLOCK_SCALES[random.below(BLOCK_SCALES.len())];
        self.layout.blocks(random, 1, scale)
    }

    fn case(&self, w: &[u8], block: &Q8Block, n: usize) -> Compared {
        held::value(
            forged_blocks::judged(self.kind, &self.layout, w.len(), block, n),
            || self.other_answers(w, block, n),
            (self.ours)(w, block, n),
            || format!("{} bytes {w:02X?}, {block:?}, n {n}", w.len()),
        )
    }

    fn other_answers(&self, w: &[u8], block: &Q8Block, n: usize) -> f32 {
        let (d, qs, bsums) = (block.d(), *block.qs(), *block.bsums());
        (self.other)(w, &quant::Q8Block { d, qs, bsums }, n)
    }

    /// Blocks of readings and of any quants, at each n, wrong sums, and too few bytes; then, at each
    /// n, a block of as many readings, and forged counts. A payload is n, how many packed bytes there
    /// are, these, the activation block's scale, quants, sums and count, the number of the refusal,
    /// and the value, each 0 where there is none.
    fn sample(&self, records: &mut Records) {
        let mut random = Random::new(self.layout.bytes as u64);
        let mut store = |w: &[u8], block: &Q8Block, n: usize| {
            let refusal = forged_blocks::judged(self.kind, &self.layout, w.len(), block, n);
            let value = match refusal {
                Some(_) => 0.0,
                None => self.other_answers(w, block, n),
            };
            let [scale, quants, sums, readings] = stored(block);
            records.push(&[
                &count(n),
                &count(w.len()),
                w,
                &scale,
                &quants,
                &sums,
                &readings,
                &count(refusal.map_or(0, |refusal| refusal.number() as usize)),
                &floats(&[value]),
            ]);
        };
        for n in COUNTS {
            let packed = self.packed(&mut random);
            store(&packed, &of_readings(&mut random), n);
        }
        for (n, wrong_by) in [(0, 1), (100, -1), (256, 65_536)] {
            let packed = self.packed(&mut random);
            store(&packed, &full_of_any_quants(&mut random), n);
            let wrong = with_sum(&of_readings(&mut random), n % 8, wrong_by);
            store(&packed, &wrong, n);
            store(&packed[1..], &wrong, n);
        }
        for n in COUNTS {
            let packed = self.packed(&mut random);
            store(&packed, &of_rust(&row(&mut random, n.min(VALUES))), n);
        }
        for (readings, said) in [(256, 257), (100, 99), (0, 65_536), (32, 33)] {
            let packed = self.packed(&mut random);
            let block = with_count(&of_rust(&[1.0; VALUES][..readings]), said);
            store(&packed, &block, said);
            store(&packed, &with_sum(&block, 0, 1), said);
            store(&packed[1..], &block, said);
        }
    }
}

/// An n that the block serves: its count, or where that is 256 any above it.
fn places(random: &mut Random, block: &Q8Block) -> usize {
    match block.count() {
        VALUES => VALUES + [0, random.below(44), random.u64() as usize >> 1][random.below(3)],
        count => count,
    }
}

/// The Rust's block of up to 256 readings.
fn of_readings(random: &mut Random) -> Q8Block {
    let len = [VALUES, random.below(VALUES + 1)][random.below(2)];
    of_rust(&row(random, len))
}

/// The Rust's block of 256 readings.
fn full_of_readings(random: &mut Random) -> Q8Block {
    of_rust(&row(random, VALUES))
}

/// A block that no quantizer made: any quants, with their sums, and a scale of any kind.
fn full_of_any_quants(random: &mut Random) -> Q8Block {
    let bytes = random.bytes(VALUES);
    let qs = std::array::from_fn(|place| bytes[place] as i8);
    Q8Block::from_parts(any_float(random), qs, sums_of(&qs), VALUES)
}

/// The same, or one with fewer of them, and 0 past them; its count may be above theirs then.
fn of_any_quants(random: &mut Random) -> Q8Block {
    let block = full_of_any_quants(random);
    let count = [VALUES, random.below(VALUES + 1)][random.below(2)];
    let quants = [count, random.below(count + 1)][random.below(2)];
    let mut qs = *block.qs();
    qs[quants..].fill(0);
    Q8Block::from_parts(block.d(), qs, sums_of(&qs), count)
}

/// The block with another sum.
fn with_sum(block: &Q8Block, place: usize, by: i32) -> Q8Block {
    let mut bsums = *block.bsums();
    bsums[place] += by;
    Q8Block::from_parts(block.d(), *block.qs(), bsums, block.count())
}

/// The block with another count.
fn with_count(block: &Q8Block, count: usize) -> Q8Block {
    Q8Block::from_parts(block.d(), *block.qs(), *block.bsums(), count)
}
