//! The dot of a row of readings and a row of packed blocks, whichever call it is.
use crate::block_counts::{of_row, short};
use crate::compare::{Compared, Comparison, Difference};
use crate::held;
use crate::sample::{count, floats, Records};
use jambharrow::{Refusal, MOST_IN};
use oracle::error::Result as RustResult;
use oracle::inputs::{any_scale, reading, row, trained_scale, Draw, Layout, SCALES};
use oracle::random::Random;

/// A dot of readings and packed bytes over their first n places.
type Dot<T> = fn(&[f32], &[u8], usize) -> T;

/// A row dot, on both sides. The other side is the Rust, or the reference of Q5_K.
pub struct RowDot {
    pub layout: Layout,
    pub other: Dot<RustResult<f32>>,
    pub ours: Dot<Result<f32, Refusal>>,
    /// Whether the other side adds up a row of too few weights and says Ok, as docs/DIFFERENCES.md
    /// has it of the Rust.
    pub adds_up_short_rows: bool,
}

/// How many rows of a few blocks are compared, and how many readings they have at most.
const SHORT_ROWS: u64 = 1 << 18;
const SHORT: usize = 1_100;

/// How many rows of too few blocks are compared, and how many places they have at most.
const CUT_ROWS: u64 = 1 << 14;
const CUT: usize = 8_448;

/// Counts of places against one block: the last is one too many.
const OF_ONE_BLOCK: [usize; 8] = [0, 1, 31, 32, 33, 255, 256, 257];
/// How many rows are compared at each.
const ROWS_OF_ONE_BLOCK: u64 = 1 << 12;

/// Counts of places around a chunk's and around the most that a row may have.
const LONG: [usize; 5] = [8_191, 8_192, 8_193, 131_072, 131_073];
/// How many rows are compared at each.
const LONG_ROWS: u64 = 64;

/// How the scales of a row's blocks are drawn.
const ROW_SCALES: [Draw<u16>; 4] = [trained_scale, trained_scale, SCALES[2], any_scale];

impl RowDot {
    pub fn compare(&self, comparison: &mut Comparison) {
        comparison.cases("rows of a few blocks", SHORT_ROWS, |number| {
            self.on_row_of(number, 1 + number as usize % SHORT)
        });
        let counts = OF_ONE_BLOCK.len() as u64 * ROWS_OF_ONE_BLOCK;
        comparison.cases("0 to 257 places against one block", counts, |number| {
            let n = OF_ONE_BLOCK[(number / ROWS_OF_ONE_BLOCK) as usize];
            let mut random = Random::new(number);
            let x = row(&mut random, 257);
            let w = self.weights(&mut random, 1);
            self.case(&x, &w, n)
        });
        let counts = LONG.len() as u64 * LONG_ROWS;
        comparison.cases("rows around a chunk and the most", counts, |number| {
            self.on_row_of(number, LONG[(number / LONG_ROWS) as usize])
        });
        comparison.cases("rows of too few blocks", CUT_ROWS, |number| {
            let mut random = Random::new(number);
            let n = 1 + random.below(CUT);
            let blocks = random.below(self.needs(n));
            let w = self.weights(&mut random, blocks);
            self.case(&row(&mut random, n), &w, n)
        });
        let shapes = self.shapes();
        comparison.cases("refusals", shapes.len() as u64, |number| {
            let (readings, bytes, n) = shapes[number as usize];
            let mut random = Random::new(number);
            let mut w = self.weights(&mut random, bytes.div_ceil(self.layout.bytes));
            w.truncate(bytes);
            self.case(&row(&mut random, readings), &w, n)
        });
    }

    /// A row of n places, with a few readings and at times a block behind them.
    fn on_row_of(&self, number: u64, n: usize) -> Compared {
        let mut random = Random::new(number);
        let len = n + random.below(3);
        let x = row(&mut random, len);
        let blocks = self.needs(n) + random.below(2);
        let w = self.weights(&mut random, blocks);
        self.case(&x, &w, n)
    }

    /// So many blocks, whose scales are of one kind.
    pub fn weights(&self, random: &mut Random, blocks: usize) -> Vec<u8> {
        let scale = ROW_SCALES[random.below(ROW_SCALES.len())];
        self.layout.blocks(random, blocks, scale)
    }

    /// How many blocks n places need.
    fn needs(&self, n: usize) -> usize {
        of_row(&self.layout, n)
    }

    /// How many readings and packed bytes there are, and n: each none, one short, as many as
    /// needed, and more, and blocks that are not whole.
    fn shapes(&self) -> Vec<(usize, usize, usize)> {
        let bytes = self.layout.bytes;
        let mut shapes = vec![(0, 0, usize::MAX), (0, 1, usize::MAX), (0, 0, MOST_IN + 1)];
        for n in OF_ONE_BLOCK.into_iter().chain([512, 513]).chain(LONG) {
            let exact = self.needs(n) * bytes;
            let lengths = [
                0,
                1,
                exact.saturating_sub(bytes),
                exact.saturating_sub(1),
                exact,
                exact + 1,
                exact + bytes,
            ];
            for readings in [0, n.saturating_sub(1), n, n + 1] {
                shapes.extend(lengths.map(|length| (readings, length, n)));
            }
        }
        shapes
    }

    /// Why document 01 says no to so many readings and packed bytes.
    fn refusal(&self, readings: usize, bytes: usize, n: usize) -> Option<Refusal> {
        let Layout {
            bytes: block,
            values,
            ..
        } = self.layout;
        if n > MOST_IN {
            Some(Refusal::TooLarge)
        } else if bytes % block != 0 {
            Some(Refusal::NotWholeBlocks)
        } else if n == 0 {
            None
        } else if bytes / block * values < n {
            Some(short(&self.layout, bytes, self.needs(n)))
        } else if readings < n {
            Some(Refusal::ReadingsShort)
        } else {
            None
        }
    }

    /// Holds ours to the other side, where that answers, and to document 01; and the other side to
    /// what document 01 and docs/DIFFERENCES.md say of the Rust where ours refuses.
    fn case(&self, x: &[f32], w: &[u8], n: usize) -> Compared {
        let input = || {
            let first: Vec<u32> = x.iter().take(16).map(|float| float.to_bits()).collect();
            let block: Vec<u8> = w.iter().take(self.layout.bytes).copied().collect();
            format!(
                "{} readings {first:08X?}, {} bytes {block:02X?}, n {n}",
                x.len(),
                w.len()
            )
        };
        let refusal = self.refusal(x.len(), w.len(), n);
        let refuses = match refusal {
            Some(Refusal::NotWholeBlocks) => Some(true),
            // With too few readings too, it may look past them, and panics.
            Some(Refusal::WeightsShort(_)) if x.len() >= n => Some(!self.adds_up_short_rows),
            _ => None,
        };
        if let Some(refuses) = refuses {
            let other = (self.other)(x, w, n);
            if other.is_err() != refuses {
                return Err(Difference {
                    input: input(),
                    wanted: format!("of the other side a refusal: {refuses}"),
                    ours: format!("{other:?}"),
                });
            }
        }
        let other = || (self.other)(x, w, n).expect("it answers where document 01 does");
        held::value(refusal, other, (self.ours)(x, w, n), input)
    }

    /// Rows of one and two blocks, of every kind, one of a place more than a chunk has, and each
    /// refusal. A payload is n, how many readings and packed bytes there are, these, the number of
    /// the refusal, and the value, each 0 where there is none.
    pub fn sample(&self, records: &mut Records) {
        let Layout { bytes, .. } = self.layout;
        let mut random = Random::new(bytes as u64);
        let mut store = |x: &[f32], w: &[u8], n: usize| {
            let refusal = self.refusal(x.len(), w.len(), n);
            let value = match refusal {
                Some(_) => 0.0,
                None => (self.other)(x, w, n).expect("it answers where document 01 does"),
            };
            records.push(&[
                &count(n),
                &count(x.len()),
                &count(w.len()),
                &floats(x),
                w,
                &count(refusal.map_or(0, |refusal| refusal.number() as usize)),
                &floats(&[value]),
            ]);
        };
        store(&[], &[], MOST_IN + 1);
        store(&[], &[0], 0);
        store(&[], &[], 0);
        let one = self.weights(&mut random, 1);
        store(&[1.0; 257], &one, 257);
        store(&[1.0; 2], &one, 3);
        for n in [1, 7, 8, 31, 32, 33, 255, 256, 257, 511] {
            let w = self.weights(&mut random, self.needs(n));
            store(&row(&mut random, n), &w, n);
        }
        let x: Vec<f32> = (0..LONGEST).map(|_| reading(&mut random)).collect();
        let w = self
            .layout
            .blocks(&mut random, self.needs(LONGEST), trained_scale);
        store(&x, &w, LONGEST);
    }
}

/// The longest row that is stored: one place more than a chunk has.
const LONGEST: usize = 8_193;
