//! Making record files: document 01's example, and files of any layers and windows.
use crate::formats::{any_format, named};
use crate::record_files::{MOST_IN_FEAT, MOST_OUT_FEAT};
use crate::sample::{count, floats};
use oracle::inputs::{any_float, any_scale, reading, row, set_scale, trained_scale, Draw, SCALES};
use oracle::random::Random;

/// A record of a kind and a payload, with the length that it has.
pub fn record(kind: u16, payload: &[u8]) -> Vec<u8> {
    [&count(2 + payload.len())[..], &kind.to_le_bytes(), payload].concat()
}

/// A layer record of these fields, whether or not they go together.
pub fn layer(format: u8, in_feat: usize, out_feat: usize, weights: &[u8]) -> Vec<u8> {
    let payload = [&[format], &count(in_feat)[..], &count(out_feat), weights].concat();
    record(1, &payload)
}

/// A window record of these readings.
pub fn window(readings: &[f32]) -> Vec<u8> {
    record(2, &floats(readings))
}

/// The block of document 01's example: Q4_K, d = 1, dmin = 0, the first scale byte 1, the others 0,
/// all nibble bytes 0x11.
pub fn example_block() -> [u8; 144] {
    let mut block = [0; 144];
    set_scale(&mut block, 0, 0x3C00);
    block[4] = 1;
    block[16..].fill(0x11);
    block
}

/// Document 01's example: its layer, a window of 256 ones, and the same with its first reading +0.0.
pub fn example() -> Vec<u8> {
    let mut ones = [1.0; 256];
    let whole = window(&ones);
    ones[0] = 0.0;
    [layer(4, 256, 1, &example_block()), whole, window(&ones)].concat()
}

/// How the scales of a layer's blocks are drawn. Of the last kind any may be a NaN or an infinity.
const WEIGHT_SCALES: [Draw<u16>; 4] = [trained_scale, trained_scale, SCALES[2], any_scale];

/// A layer record of a format and sizes, with weights of any kind.
pub fn any_layer(random: &mut Random, format: u8, in_feat: usize, out_feat: usize) -> Vec<u8> {
    let scale = WEIGHT_SCALES[random.below(WEIGHT_SCALES.len())];
    layer_of(random, format, in_feat, out_feat, scale)
}

/// A layer record of a format and sizes, whose scales are drawn by `scale`.
pub fn layer_of(
    random: &mut Random,
    format: u8,
    in_feat: usize,
    out_feat: usize,
    scale: Draw<u16>,
) -> Vec<u8> {
    let layout = &named(format).expect("the byte of a format").layout;
    let weights = layout.blocks(random, out_feat * in_feat / layout.values, scale);
    layer(format, in_feat, out_feat, &weights)
}

/// Readings of a window that has no warm-up readings: ordinary ones, or a row of any kind, in which
/// each +0.0 is made -0.0.
pub fn readings(random: &mut Random, in_feat: usize) -> Vec<f32> {
    let mut readings: Vec<f32> = match random.below(4) {
        0 => (0..in_feat).map(|_| reading(random)).collect(),
        1 => (0..in_feat).map(|_| any_float(random)).collect(),
        _ => row(random, in_feat),
    };
    for reading in &mut readings {
        if reading.to_bits() == 0 {
            *reading = -0.0;
        }
    }
    readings
}

/// Readings of a window that still has warm-up readings: the first few, or one anywhere.
pub fn warm_up_readings(random: &mut Random, in_feat: usize) -> Vec<f32> {
    let mut readings = readings(random, in_feat);
    match random.below(4) {
        0 => readings[..1 + random.below(in_feat)].fill(0.0),
        1 => readings[0] = 0.0,
        2 => readings[in_feat - 1] = 0.0,
        _ => readings[random.below(in_feat)] = 0.0,
    }
    readings
}

/// A window record for a layer of in_feat; of every five one is a warm-up window.
pub fn any_window(random: &mut Random, in_feat: usize) -> Vec<u8> {
    let readings = match random.below(5) {
        0 => warm_up_readings(random, in_feat),
        _ => readings(random, in_feat),
    };
    window(&readings)
}

/// in_feat of most layers: few blocks, so that a file is quickly answered.
const SHORT: [usize; 8] = [256, 256, 256, 256, 256, 512, 512, 768];

/// The sizes of a layer: mostly small, of every sixteen one of any size, and of every sixty-four
/// one of the largest.
fn any_sizes(random: &mut Random) -> (usize, usize) {
    match random.below(64) {
        0 => (MOST_IN_FEAT, MOST_OUT_FEAT),
        1..=4 => (
            256 * (1 + random.below(MOST_IN_FEAT / 256)),
            1 + random.below(MOST_OUT_FEAT),
        ),
        _ => (SHORT[random.below(SHORT.len())], 1 + random.below(3)),
    }
}

/// The records of a file: a few layers, each with a few windows.
pub fn any_file(random: &mut Random) -> Vec<Vec<u8>> {
    let mut records = Vec::new();
    for _ in 0..=random.below(3) {
        let format = any_format(random);
        let (in_feat, out_feat) = any_sizes(random);
        records.push(any_layer(random, format, in_feat, out_feat));
        for _ in 0..random.below(5) {
            records.push(any_window(random, in_feat));
        }
    }
    records
}
