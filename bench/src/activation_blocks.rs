//! Activation blocks, and the integer dots over them.
use crate::calls::Call;
use crate::fixed_order_sums::readings;
use crate::measure::{Beside, Row, Size};
use crate::q5_k;
use crate::row_dots;
use jambharrow::{Q8Block, Refusal};
use oracle::inputs::{trained_scale, Layout, Q4_K, Q5_K, Q6_K};
use oracle::ops::quant;
use oracle::random::Random;
use std::hint::black_box;

pub const QUANTIZE_BLOCK_Q8: Call = Call {
    name: "quantize_block_q8",
    rows: || PARTS.map(|part| row_of_quantize(part, 0.5)).into(),
};

pub const DOT_Q4K_Q8_BLOCK: Call = Call {
    name: "dot_q4k_q8_block",
    rows: || {
        rows_of_dot(
            &Q4_K,
            Some(1.1),
            jambharrow::dot_q4k_q8_block,
            quant::dot_q4k_q8_block,
        )
    },
};

pub const DOT_Q5K_Q8_BLOCK: Call = Call {
    name: "dot_q5k_q8_block",
    rows: || {
        rows_of_dot(
            &Q5_K,
            None,
            jambharrow::dot_q5k_q8_block,
            q5_k::dot_q5k_q8_block,
        )
    },
};

pub const DOT_Q6K_Q8_BLOCK: Call = Call {
    name: "dot_q6k_q8_block",
    rows: || {
        rows_of_dot(
            &Q6_K,
            Some(0.6),
            jambharrow::dot_q6k_q8_block,
            quant::dot_q6k_q8_block,
        )
    },
};

pub const INTEGER_DOT_Q4K: Call = Call {
    name: "integer_dot_q4k",
    rows: || {
        let row = |length: (Size, usize)| {
            let bar = (length.0 == Size::Device).then_some(0.6);
            row_dots::row(
                &Q4_K,
                length,
                bar,
                jambharrow::integer_dot_q4k,
                quant::integer_dot_q4k,
            )
        };
        row_dots::ROWS.map(row).into()
    },
};

pub const INTEGER_DOT_Q5K: Call = Call {
    name: "integer_dot_q5k",
    rows: || {
        let row = |length| {
            row_dots::row(
                &Q5_K,
                length,
                None,
                jambharrow::integer_dot_q5k,
                q5_k::integer_dot_q5k,
            )
        };
        row_dots::ROWS.map(row).into()
    },
};

/// How much of a block there is: one run of 32, a part that ends within one, and all of it.
const PARTS: [(Size, usize); 3] = [(Size::Small, 32), (Size::Small, 100), (Size::Device, 256)];

/// Ours fills the four parts of a block that is lent, and the Rust's three are returned.
fn row_of_quantize((size, len): (Size, usize), bar: f64) -> Row {
    let rust: fn(&[f32]) -> quant::Q8Block = black_box(quant::quantize_block_q8);
    let x = readings(&mut Random::new(len as u64), len);
    let theirs = x.clone();
    let (mut d, mut qs, mut bsums, mut count) = (0.0, [0; 256], [0; 8], 0);
    Row {
        input: format!("{len} readings"),
        size,
        values: len,
        calls: 1,
        bar: (size == Size::Device).then_some(bar),
        vector: None,
        ours: Box::new(move || {
            let (d, qs, bsums, count) = black_box((&mut d, &mut qs, &mut bsums, &mut count));
            jambharrow::quantize_block_q8_into(black_box(&x), d, qs, bsums, count)
                .expect("readings of one block");
        }),
        beside: Beside::Rust(Box::new(move || {
            black_box(rust(black_box(&theirs)));
        })),
    }
}

/// A block dot over parts of a block, and over all of it. Ours looks at the block's count, at what
/// stands past it, and at its sums.
fn rows_of_dot(
    layout: &Layout,
    bar: Option<f64>,
    ours: impl Fn(&[u8], &Q8Block, usize) -> Result<f32, Refusal> + Copy + 'static,
    rust: fn(&[u8], &quant::Q8Block, usize) -> f32,
) -> Vec<Row> {
    let rust = black_box(rust);
    let row = |(size, n): (Size, usize)| {
        let mut random = Random::new(n as u64);
        let w = layout.blocks(&mut random, 1, trained_scale);
        let block = quant::quantize_block_q8(&readings(&mut random, n));
        let quant::Q8Block { d, qs, bsums } = block;
        let (ours_w, ours_block) = (w.clone(), Q8Block::from_parts(d, qs, bsums, n));
        Row {
            input: format!("n {n}"),
            size,
            values: n,
            calls: 1,
            bar: bar.filter(|_| size == Size::Device),
            vector: None,
            ours: Box::new(move || {
                black_box(ours(black_box(&ours_w), black_box(&ours_block), n))
                    .expect("a block of n readings, with its sums");
            }),
            beside: Beside::Rust(Box::new(move || {
                black_box(rust(black_box(&w), black_box(&block), n));
            })),
        }
    };
    PARTS.map(row).into()
}
