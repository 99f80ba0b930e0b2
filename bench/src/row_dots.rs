//! The dot of a row of readings and a row of packed blocks, whichever call it is.
use crate::measure::{Beside, Row, Size};
use jambharrow::Refusal;
use oracle::error::Result as RustResult;
use oracle::inputs::{reading, trained_scale, Layout};
use oracle::random::Random;
use std::hint::black_box;
use std::rc::Rc;

/// The lengths of a row.
pub const ROWS: [(Size, usize); 4] = [
    (Size::Small, 256),
    (Size::Device, 2_048),
    (Size::Large, 4_096),
    (Size::Large, 131_072),
];

/// A call on n readings and the blocks that they need.
pub fn row(
    layout: &Layout,
    (size, n): (Size, usize),
    bar: Option<f64>,
    ours: impl Fn(&[f32], &[u8], usize) -> Result<f32, Refusal> + 'static,
    rust: fn(&[f32], &[u8], usize) -> RustResult<f32>,
) -> Row {
    let rust = black_box(rust);
    let mut random = Random::new(n as u64);
    let x: Vec<f32> = (0..n).map(|_| reading(&mut random)).collect();
    let w = layout.blocks(&mut random, n.div_ceil(layout.values), trained_scale);
    let both = Rc::new((x, w));
    let theirs = both.clone();
    Row {
        input: format!("{n} readings"),
        size,
        values: n,
        calls: 1,
        bar,
        vector: None,
        ours: Box::new(move || {
            let (x, w) = black_box(&*both);
            black_box(ours(x, w, x.len())).expect("rows of n places");
        }),
        beside: Beside::Rust(Box::new(move || {
            let (x, w) = black_box(&*theirs);
            black_box(rust(x, w, x.len())).expect("rows of n places");
        })),
    }
}
