//! The block quantizer that is given its scale, over 256 readings, a row of the logger, and many.
use crate::calls::Call;
use crate::iq4_nl;
use crate::measure::{Beside, Row, Size};
use oracle::inputs::reading;
use oracle::random::Random;
use std::hint::black_box;

pub const QUANTIZE_IQ4_NL: Call = Call {
    name: "quantize_iq4_nl",
    rows: || RUNS.into_iter().map(row).collect(),
};

/// How many blocks of 32 readings a run has.
const RUNS: [(Size, usize); 3] = [(Size::Small, 8), (Size::Device, 64), (Size::Large, 2_048)];

/// How much of the other side's time it may take at most.
const BAR: f64 = 0.7;

/// A scale of a quarter, by which readings become integers of every size.
const SCALE: u16 = 0x3400;

fn row((size, blocks): (Size, usize)) -> Row {
    let mut random = Random::new(blocks as u64);
    let data: Vec<f32> = (0..32 * blocks).map(|_| reading(&mut random)).collect();
    let theirs = data.clone();
    let mut out = vec![0; 18 * blocks];
    Row {
        input: format!("{blocks} blocks of readings"),
        size,
        values: 32 * blocks,
        calls: 1,
        bar: (size != Size::Small).then_some(BAR),
        vector: None,
        ours: Box::new(move || {
            jambharrow::quantize_iq4_nl(black_box(&data), black_box(SCALE), black_box(&mut out))
                .expect("room for whole blocks");
        }),
        beside: Beside::Rust(Box::new(move || {
            black_box(iq4_nl::quantize_iq4_nl(
                black_box(&theirs),
                black_box(SCALE),
            ))
            .expect("whole blocks");
        })),
    }
}
