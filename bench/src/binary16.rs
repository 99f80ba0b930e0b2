//! Binary16, over an array of inputs of one kind.
use crate::calls::Call;
use crate::measure::{Beside, Row, Size, Turn};
use jambharrow::Narrowed;
use oracle::ops::quant::reach;
use oracle::random::Random;
use std::hint::black_box;

pub const F16_TO_F32: Call = Call {
    name: "f16_to_f32",
    rows: rows_f16_to_f32,
};

pub const F32_TO_F16: Call = Call {
    name: "f32_to_f16",
    rows: rows_f32_to_f16,
};

/// How many inputs a turn goes through.
const INPUTS: usize = 4096;

// The Rust behind C functions, as ours is. They are reached through pointers that the compiler does
// not see through, as ours through the linker, so that each side pays for one call.

extern "C" fn rust_f16_to_f32(half: u16) -> f32 {
    reach::f16_to_f32(half)
}

// The Rust's bits alone: it does not say how the number fared.
extern "C" fn rust_f32_to_f16(bits: u32) -> u16 {
    reach::f32_to_f16(f32::from_bits(bits))
}

fn rows_f16_to_f32() -> Vec<Row> {
    let rust: extern "C" fn(u16) -> f32 = black_box(rust_f16_to_f32);
    let row = |input, draw: fn(&mut Random) -> u16| {
        row(
            input,
            draw,
            |half| jambharrow::f16_to_f32(half).to_bits(),
            move |half| rust(half).to_bits(),
        )
    };
    vec![
        row("normal halves", |random| 0x0400 + random.u16() % 0x7800),
        row("subnormal halves", |random| 1 + random.u16() % 0x03FF),
        row("halves of every kind", |random| random.u16()),
    ]
}

fn rows_f32_to_f16() -> Vec<Row> {
    let rust: extern "C" fn(u32) -> u16 = black_box(rust_f32_to_f16);
    let row = |input, draw: fn(&mut Random) -> u32| {
        row(
            input,
            draw,
            |bits| {
                let Narrowed { bits, how } = jambharrow::f32_to_f16(f32::from_bits(bits));
                u32::from(bits) ^ (how as u32) << 16
            },
            move |bits| u32::from(rust(bits)),
        )
    };
    vec![
        row("floats that a half can hold", |random| {
            0x3880_0000 + random.u32() % 0x0F00_0000
        }),
        row("floats of every kind", |random| random.u32()),
    ]
}

/// A turn asks for every input in order and joins the answers, so that none can be left out.
fn row<T: Copy + 'static>(
    input: &'static str,
    draw: fn(&mut Random) -> T,
    ours: impl Fn(T) -> u32 + 'static,
    rust: impl Fn(T) -> u32 + 'static,
) -> Row {
    let mut random = Random::new(INPUTS as u64);
    let inputs: Vec<T> = (0..INPUTS).map(|_| draw(&mut random)).collect();
    Row {
        input: input.into(),
        size: Size::One,
        values: 1,
        calls: INPUTS,
        bar: None,
        vector: None,
        ours: turn(inputs.clone(), ours),
        beside: Beside::Rust(turn(inputs, rust)),
    }
}

fn turn<T: Copy + 'static>(inputs: Vec<T>, call: impl Fn(T) -> u32 + 'static) -> Turn {
    Box::new(move || {
        let answers = black_box(&inputs)
            .iter()
            .fold(0, |answers, &input| answers ^ call(input));
        black_box(answers);
    })
}
