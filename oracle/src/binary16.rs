//! Binary16: both ways are compared on every pattern there is. How a number fared is judged beside the
//! Rust, which does not say it.
use crate::calls::Call;
use crate::compare::{Comparison, Difference};
use crate::held::same;
use crate::narrowing::judged;
use crate::sample::Records;
use jambharrow::{How, Narrowed};
use oracle::ops::quant::reach;
use oracle::random::Random;

pub const F16_TO_F32: Call = Call {
    name: "f16_to_f32",
    compare: compare_f16_to_f32,
    sample: sample_f16_to_f32,
};

pub const F32_TO_F16: Call = Call {
    name: "f32_to_f16",
    compare: compare_f32_to_f16,
    sample: sample_f32_to_f16,
};

fn compare_f16_to_f32(comparison: &mut Comparison) {
    comparison.cases("every half", 1 << 16, |number| {
        let half = number as u16;
        let rust = reach::f16_to_f32(half);
        let ours = jambharrow::f16_to_f32(half);
        if same(rust, ours) {
            return Ok(1);
        }
        Err(Difference {
            input: format!("{half:04X}"),
            wanted: format!("{:08X}", rust.to_bits()),
            ours: format!("{:08X}", ours.to_bits()),
        })
    });
}

fn compare_f32_to_f16(comparison: &mut Comparison) {
    comparison.cases("every bit pattern", 1 << 32, |number| {
        let f = f32::from_bits(number as u32);
        let rust = reach::f32_to_f16(f);
        let wanted = judged(f, rust);
        let Narrowed { bits, how } = jambharrow::f32_to_f16(f);
        if rust == bits && wanted == Some(how) {
            return Ok(1);
        }
        let shown = |half: u16, how: Option<How>| format!("{half:04X}, {how:?}");
        Err(Difference {
            input: format!("{:08X}", f.to_bits()),
            wanted: shown(rust, wanted),
            ours: shown(bits, Some(how)),
        })
    });
}

/// For each sign and exponent, every power of two as the digits, with the numbers beside it; then
/// patterns at random. The payload is the half and the bits of its float.
fn sample_f16_to_f32(records: &mut Records) {
    let mut store = |half: u16| {
        let answer = reach::f16_to_f32(half).to_bits();
        records.push(&[&half.to_le_bytes(), &answer.to_le_bytes()]);
    };
    let mut digits: Vec<u16> = (0..=10)
        .flat_map(|place| [(1 << place) - 1, 1 << place, (1 << place) + 1])
        .filter(|&digits| digits < 1024)
        .collect();
    digits.sort();
    digits.dedup();
    for sign_and_exponent in 0..64 {
        for &digits in &digits {
            store(sign_and_exponent * 1024 + digits);
        }
    }
    let mut random = Random::new(16);
    for _ in 0..1024 {
        store(random.u16());
    }
}

/// For each sign and exponent, digits around a step of the ten that are kept, at the bottom, in the
/// middle and at the top; then patterns at random. The payload is the pattern, the half, and how the
/// number fared, as C has it.
fn sample_f32_to_f16(records: &mut Records) {
    let mut store = |bits: u32| {
        let f = f32::from_bits(bits);
        let answer = reach::f32_to_f16(f);
        let how = judged(f, answer).expect("it is one of the four");
        records.push(&[&bits.to_le_bytes(), &answer.to_le_bytes(), &[how as u8]]);
    };
    let digits = [
        0, 1, 0x1FFF, 0x2000, 0x2001, 0x3F_FFFF, 0x40_0000, 0x7F_DFFF, 0x7F_E000, 0x7F_FFFF,
    ];
    for sign_and_exponent in 0..512 {
        for digits in digits {
            store(sign_and_exponent * 0x80_0000 + digits);
        }
    }
    let mut random = Random::new(32);
    for _ in 0..1024 {
        store(random.u32());
    }
}
