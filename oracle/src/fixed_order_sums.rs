//! The fixed-order sums.
use crate::calls::Call;
use crate::compare::{Compared, Comparison};
use crate::held;
use crate::laws;
use crate::sample::{count, floats, Records};
use jambharrow::{Refusal, MOST_FLOATS, MOST_IN};
use oracle::inputs::{reading, row, rows};
use oracle::ops::quant;
use oracle::random::Random;

pub const CANONICAL_CHUNK: Call = Call {
    name: "canonical_chunk",
    compare: |comparison| compare_rows(comparison, |x, w, _| chunk_case(x, w)),
    sample: sample_canonical_chunk,
};

pub const CANONICAL_COMBINE: Call = Call {
    name: "canonical_combine",
    compare: compare_canonical_combine,
    sample: sample_canonical_combine,
};

pub const CANONICAL_DOT_PUB: Call = Call {
    name: "canonical_dot_pub",
    compare: |comparison| {
        compare_rows(comparison, dot_case);
        laws::of_dot(comparison);
    },
    sample: sample_canonical_dot_pub,
};

pub const CANONICAL_SUM_PUB: Call = Call {
    name: "canonical_sum_pub",
    compare: |comparison| compare_rows(comparison, |x, _, n| sum_case(x, n)),
    sample: sample_canonical_sum_pub,
};

/// How many short rows are compared, and how many places they have at most.
const SHORT_ROWS: u64 = 1 << 20;
const SHORT: usize = 40;

/// Lengths around those of the lanes, of a chunk and of the largest row.
const LENGTHS: [usize; 10] = [0, 1, 7, 8, 9, 8_191, 8_192, 8_193, 131_072, 131_073];

/// How many rows of each of these lengths are compared.
const ROWS: u64 = 128;

/// Compares a call on two rows and n: on short rows and on those of each length, with a few places
/// behind the first n or none, and on rows too short for n.
fn compare_rows(
    comparison: &mut Comparison,
    case: impl Fn(&[f32], &[f32], usize) -> Compared + Sync,
) {
    let on_rows_of = |n: usize, number: u64| {
        let mut random = Random::new(number);
        let (x, w) = rows(&mut random, n + 2);
        case(&x[..n + random.below(3)], &w[..n + random.below(3)], n)
    };
    comparison.cases("short rows", SHORT_ROWS, |number| {
        on_rows_of(number as usize % (SHORT + 1), number)
    });
    comparison.cases("rows of each length", lengths(), |number| {
        on_rows_of(length(number), number)
    });
    let shapes = shapes();
    comparison.cases("refusals", shapes.len() as u64, |number| {
        let (x, w, n) = shapes[number as usize];
        let (readings, weights) = rows(&mut Random::new(number), x.max(w));
        case(&readings[..x], &weights[..w], n)
    });
}

/// How many rows there are of all of the lengths, and the length of one of them.
fn lengths() -> u64 {
    LENGTHS.len() as u64 * ROWS
}

fn length(number: u64) -> usize {
    LENGTHS[(number / ROWS) as usize]
}

/// How many readings and weights there are, and n: none, one short, as many as n, and one more.
fn shapes() -> Vec<(usize, usize, usize)> {
    let mut shapes = vec![(0, 0, usize::MAX)];
    for n in LENGTHS {
        let many = [0, n.saturating_sub(1), n, n + 1];
        for x in many {
            shapes.extend(many.map(|w| (x, w, n)));
        }
    }
    shapes
}

/// Why document 01 says no to a chunk of so many readings and weights.
fn chunk_refusal(x: usize, w: usize) -> Option<Refusal> {
    if x > MOST_FLOATS {
        Some(Refusal::TooLarge)
    } else if w < x {
        Some(Refusal::WeightsShort(None))
    } else {
        None
    }
}

/// Why document 01 says no to a dot over so many readings and weights.
fn dot_refusal(x: usize, w: usize, n: usize) -> Option<Refusal> {
    if n > MOST_IN {
        Some(Refusal::TooLarge)
    } else if n == 0 {
        None
    } else if w < n {
        Some(Refusal::WeightsShort(None))
    } else if x < n {
        Some(Refusal::ReadingsShort)
    } else {
        None
    }
}

/// Why document 01 says no to a sum over so many readings.
fn sum_refusal(x: usize, n: usize) -> Option<Refusal> {
    if n > MOST_IN {
        Some(Refusal::TooLarge)
    } else if x < n {
        Some(Refusal::ReadingsShort)
    } else {
        None
    }
}

fn chunk_case(x: &[f32], w: &[f32]) -> Compared {
    held::value(
        chunk_refusal(x.len(), w.len()),
        || quant::canonical_chunk(x, w),
        jambharrow::canonical_chunk(x, w),
        || format!("x {}, w {}", shown(x), shown(w)),
    )
}

fn dot_case(x: &[f32], w: &[f32], n: usize) -> Compared {
    held::value(
        dot_refusal(x.len(), w.len(), n),
        || quant::canonical_dot_pub(x, w, n),
        jambharrow::canonical_dot_pub(x, w, n),
        || format!("x {}, w {}, n {n}", shown(x), shown(w)),
    )
}

fn sum_case(x: &[f32], n: usize) -> Compared {
    held::value(
        sum_refusal(x.len(), n),
        || quant::canonical_sum_pub(x, n),
        jambharrow::canonical_sum_pub(x, n),
        || format!("x {}, n {n}", shown(x)),
    )
}

/// How long a row is, and the bits at its front.
fn shown(row: &[f32]) -> String {
    let bits: Vec<u32> = row
        .iter()
        .take(SHORT)
        .map(|float| float.to_bits())
        .collect();
    format!("of {} {bits:08X?}", row.len())
}

fn compare_canonical_combine(comparison: &mut Comparison) {
    comparison.cases("short lists", SHORT_ROWS, |number| {
        let mut random = Random::new(number);
        combine_case(&row(&mut random, number as usize % (SHORT + 1)))
    });
    comparison.cases("lists of each length", lengths(), |number| {
        combine_case(&row(&mut Random::new(number), length(number)))
    });
}

/// The list is a part of a larger memory, no other place of which may change; nor may the back half
/// of the list.
fn combine_case(list: &[f32]) -> Compared {
    let mut before = held::memory(list.len() + 2);
    before[1..=list.len()].copy_from_slice(list);
    let mut after = before.clone();
    let ours = jambharrow::canonical_combine(&mut after[1..=list.len()]);
    let mut left = list.to_vec();
    let rust = quant::canonical_combine(&mut left);
    let input = || shown(list);
    held::value(None, || rust, Ok(ours), input)?;
    let front = list.len().div_ceil(2);
    held::places(1, &left[..front], &before, &after, input)?;
    held::places(1, &left, &before, &after, input)
}

/// Rows to store: a few short ones of each length, of any kind, and one of `longest` readings.
fn stored_rows(longest: usize) -> Vec<(Vec<f32>, Vec<f32>)> {
    let mut random = Random::new(longest as u64);
    let mut stored = Vec::new();
    for len in [1, 2, 7, 8, 9, 15, 17, SHORT] {
        stored.extend((0..12).map(|_| rows(&mut random, len)));
    }
    let mut readings = || (0..longest).map(|_| reading(&mut random)).collect();
    stored.push((readings(), readings()));
    stored
}

/// The longest row that is stored: one place more than a chunk has.
const LONGEST: usize = 8_193;

/// Stores a payload of a call on rows: n, how many readings and weights there are, these, the
/// number of the refusal, and the value, each 0 where there is none.
fn store_rows(
    records: &mut Records,
    (x, w, n): (&[f32], &[f32], usize),
    refusal: Option<Refusal>,
    rust: impl FnOnce() -> f32,
) {
    let (number, value) = match refusal {
        Some(refusal) => (refusal.number() as usize, 0.0),
        None => (0, rust()),
    };
    records.push(&[
        &count(n),
        &count(x.len()),
        &count(w.len()),
        &floats(x),
        &floats(w),
        &count(number),
        &floats(&[value]),
    ]);
}

fn sample_canonical_chunk(records: &mut Records) {
    let mut store = |x: &[f32], w: &[f32]| {
        let refusal = chunk_refusal(x.len(), w.len());
        store_rows(records, (x, w, 0), refusal, || quant::canonical_chunk(x, w));
    };
    store(&[], &[]);
    store(&[1.0], &[]);
    for (x, w) in stored_rows(LONGEST) {
        store(&x, &w);
    }
}

fn sample_canonical_dot_pub(records: &mut Records) {
    let mut store = |x: &[f32], w: &[f32], n: usize| {
        let refusal = dot_refusal(x.len(), w.len(), n);
        store_rows(records, (x, w, n), refusal, || {
            quant::canonical_dot_pub(x, w, n)
        });
    };
    store(&[], &[], MOST_IN + 1);
    store(&[], &[], 0);
    store(&[], &[], 1);
    store(&[], &[1.0], 1);
    for (x, w) in stored_rows(LONGEST) {
        store(&x, &w, x.len());
    }
}

fn sample_canonical_sum_pub(records: &mut Records) {
    let mut store = |x: &[f32], n: usize| {
        let refusal = sum_refusal(x.len(), n);
        store_rows(records, (x, &[], n), refusal, || {
            quant::canonical_sum_pub(x, n)
        });
    };
    store(&[], MOST_IN + 1);
    store(&[], 0);
    store(&[], 1);
    for (x, _) in stored_rows(LONGEST) {
        store(&x, x.len());
    }
}

/// The longest list that is stored.
const LONGEST_LIST: usize = 513;

/// A payload is how long the list is, the list, its sum, and the list that is left.
fn sample_canonical_combine(records: &mut Records) {
    let mut store = |list: &[f32]| {
        let mut left = list.to_vec();
        let sum = quant::canonical_combine(&mut left);
        records.push(&[
            &count(list.len()),
            &floats(list),
            &floats(&[sum]),
            &floats(&left),
        ]);
    };
    store(&[]);
    for (list, _) in stored_rows(LONGEST_LIST) {
        store(&list);
    }
}
