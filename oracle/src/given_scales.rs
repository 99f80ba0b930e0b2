//! The block quantizer that is given its scale.
use crate::calls::Call;
use crate::compare::{Compared, Comparison, Difference};
use crate::held;
use crate::iq4_nl::{self, PICKED};
use crate::sample::{count, floats, Records, STOOD_BYTE};
use jambharrow::{dequantize_iq4_nl, quantize_iq4_nl, Refusal, MOST_FLOATS};
use oracle::inputs::{any_bits, any_scale, row, swings, SCALES};
use oracle::random::Random;

pub const QUANTIZE_IQ4_NL: Call = Call {
    name: "quantize_iq4_nl",
    compare,
    sample,
};

/// The readings and the bytes of a block.
const VALUES: usize = 32;
const BYTES: usize = 18;

/// A scale of 1.
const ONE: u16 = 0x3C00;

/// How many floats are taken on either side of an edge between two integers.
const NEAR: i32 = 8;

fn compare(comparison: &mut Comparison) {
    comparison.cases("every integer at every half as a scale", 1 << 16, |half| {
        let d = iq4_nl::widened(half as u16);
        let readings: Vec<f32> = (-128..128).map(|integer| integer as f32 * d).collect();
        case(&readings, half as u16, 8 * BYTES)
    });
    comparison.cases(
        "floats about every edge between two integers",
        256,
        |number| {
            let edge = number as f32 - 127.5;
            let near = |step: i32| f32::from_bits(edge.to_bits().wrapping_add_signed(step));
            let readings: Vec<f32> = (-2 * NEAR..2 * NEAR).map(near).collect();
            case(&readings, ONE, BYTES)
        },
    );
    comparison.cases(
        "every value at every half as a scale, decoded and quantised again",
        1 << 16,
        |half| there_and_back(half as u16),
    );
    comparison.cases("blocks of floats of every class", 1 << 18, |number| {
        let mut random = Random::new(number);
        let scale = any_scale(&mut random);
        case(&row(&mut random, VALUES), scale, BYTES)
    });
    comparison.cases("blocks of any bits", 1 << 17, |number| {
        let mut random = Random::new(number);
        let scale = random.u16();
        let block: Vec<f32> = (0..VALUES).map(|_| any_bits(&mut random)).collect();
        case(&block, scale, BYTES)
    });
    comparison.cases("runs of blocks about their scale", 1 << 16, |number| {
        let mut random = Random::new(number);
        let (scale, blocks) = (any_scale(&mut random), random.below(128));
        let d = iq4_nl::widened(scale);
        let part = |random: &mut Random| random.below(1 << 24) as f32 / 59_919.0 - 140.0;
        let readings: Vec<f32> = (0..32 * blocks).map(|_| d * part(&mut random)).collect();
        case(&readings, scale, blocks * BYTES + random.below(4))
    });
    comparison.cases("runs of blocks of any swings", 1 << 18, |number| {
        let mut random = Random::new(number);
        let (scale, blocks) = (any_scale(&mut random), random.below(128));
        let room = blocks * BYTES + random.below(4);
        case(&swings(&mut random, blocks), scale, room)
    });
    let shapes = shapes();
    comparison.cases("lengths and rooms", shapes.len() as u64, |number| {
        let (len, room) = shapes[number as usize];
        let mut random = Random::new(number);
        let scale = any_scale(&mut random);
        case(&row(&mut random, len), scale, room)
    });
}

/// Counts of readings, and the output's places, around each boundary.
fn shapes() -> Vec<(usize, usize)> {
    let around = |exact: usize| [exact.saturating_sub(1), exact, exact + 1];
    let mut shapes = Vec::new();
    for blocks in [0, 1, 2, 3, 17, MOST_FLOATS / VALUES] {
        for len in around(blocks * VALUES) {
            let exact = len / VALUES * BYTES;
            shapes.extend(around(exact).map(|room| (len, room)));
            shapes.extend([(len, 0), (len, exact + BYTES)]);
        }
    }
    shapes.extend([(MOST_FLOATS + VALUES, 0), (MOST_FLOATS + VALUES, 1 << 20)]);
    shapes
}

/// Holds ours to the reference, where that answers, and to document 02. The output is a part of a
/// larger memory, no other place of which may change.
fn case(data: &[f32], scale: u16, room: usize) -> Compared {
    let input = || {
        let first = data.iter().take(VALUES);
        let first: Vec<String> = first.map(|x| format!("{:08X}", x.to_bits())).collect();
        let readings = format!("{} readings {}", data.len(), first.join(" "));
        format!("{readings}, scale {scale:04X}, {room} places")
    };
    let at = 1 + room % 4;
    let before = held::bytes(at + room + 1);
    let mut memory = before.clone();
    let ours = quantize_iq4_nl(data, scale, &mut memory[at..at + room]);
    let refusal = refusal(data.len(), room);
    held::outcome(refusal, ours, input)?;
    let written = match refusal {
        None => iq4_nl::quantize(data, scale).expect("it answers for whole blocks"),
        Some(_) => Vec::new(),
    };
    held::places(at, &written, &before, &memory, input)?;
    Ok(written.len() as u64 / BYTES as u64 * VALUES as u64)
}

/// Why document 02 says no to so many readings and places of output.
fn refusal(len: usize, room: usize) -> Option<Refusal> {
    if len > MOST_FLOATS {
        Some(Refusal::TooLarge)
    } else if len % VALUES != 0 {
        Some(Refusal::NotAMultiple)
    } else if room < len / VALUES * BYTES {
        Some(Refusal::RoomShort)
    } else {
        None
    }
}

/// The sixteen values times the scale, quantised by it and decoded, by ours alone: of a scale that is
/// a number and not zero each comes back, bit for bit. Any other scale makes every integer 0, and so
/// every value the scale itself, which is 1 times it.
fn there_and_back(scale: u16) -> Compared {
    let d = iq4_nl::widened(scale);
    let readings: [f32; VALUES] = std::array::from_fn(|place| d * f32::from(PICKED[place % 16]));
    let (mut bytes, mut decoded) = ([0; BYTES], [0.0; VALUES]);
    let said = [
        quantize_iq4_nl(&readings, scale, &mut bytes),
        dequantize_iq4_nl(&bytes, &mut decoded),
    ];
    let wanted = match d.is_finite() && d != 0.0 {
        true => readings,
        false => [d; VALUES],
    };
    let back = decoded.iter().zip(&wanted).all(|(&a, &b)| held::same(a, b));
    if said == [Ok(()); 2] && back {
        return Ok(VALUES as u64);
    }
    Err(Difference {
        input: format!("scale {scale:04X}"),
        wanted: format!("{wanted:?}"),
        ours: format!("{said:?} {decoded:?}"),
    })
}

/// Two blocks for each kind of scale, with readings about its magnitude and readings of every class,
/// no readings, and each refusal that a small input can have. A payload is the scale; the output's
/// places and the readings, each after its number; the refusal's number; and what then stands in the
/// output.
fn sample(records: &mut Records) {
    let mut random = Random::new(BYTES as u64);
    let mut store = |data: &[f32], scale: u16, room: usize| {
        let refusal = refusal(data.len(), room);
        let mut out = vec![STOOD_BYTE; room];
        if refusal.is_none() {
            let other = iq4_nl::quantize(data, scale).expect("it answers for whole blocks");
            out[..other.len()].copy_from_slice(&other);
        }
        records.push(&[
            &count(scale.into()),
            &count(room),
            &count(data.len()),
            &floats(data),
            &count(refusal.map_or(0, |refusal| refusal.number() as usize)),
            &out,
        ]);
    };
    for first in (-128..128).step_by(2 * VALUES) {
        let integers: Vec<f32> = (first..first + 64).map(|integer| integer as f32).collect();
        store(&integers, ONE, 2 * BYTES + 1);
    }
    for scale in SCALES {
        for _ in 0..6 {
            let scale = scale(&mut random);
            let d = iq4_nl::widened(scale);
            let parts: Vec<f32> = (0..64)
                .map(|_| d * (random.below(261) as f32 - 130.0))
                .collect();
            store(&parts, scale, 2 * BYTES + 1);
            store(&row(&mut random, 2 * VALUES), scale, 2 * BYTES + 1);
        }
    }
    store(&[], ONE, 1);
    store(&[1.0; VALUES - 1], ONE, BYTES);
    store(&[1.0; VALUES + 1], ONE, BYTES);
    store(&[1.0; VALUES], ONE, BYTES - 1);
}
