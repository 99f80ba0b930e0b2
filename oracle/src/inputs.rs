//! Inputs of every kind: packed blocks, and rows of floats.
use crate::random::Random;

/// What a packed block is: how many bytes and values it has, and where its scales stand, each a
/// little-endian binary16.
pub struct Layout {
    pub bytes: usize,
    pub values: usize,
    pub scales: &'static [usize],
}

pub const Q4_0: Layout = Layout {
    bytes: 18,
    values: 32,
    scales: &[0],
};
pub const Q5_0: Layout = Layout {
    bytes: 22,
    values: 32,
    scales: &[0],
};
pub const Q8_0: Layout = Layout {
    bytes: 34,
    values: 32,
    scales: &[0],
};
pub const IQ4_NL: Layout = Layout {
    bytes: 18,
    values: 32,
    scales: &[0],
};
pub const Q4_K: Layout = Layout {
    bytes: 144,
    values: 256,
    scales: &[0, 2],
};
pub const Q5_K: Layout = Layout {
    bytes: 176,
    values: 256,
    scales: &[0, 2],
};
pub const Q6_K: Layout = Layout {
    bytes: 210,
    values: 256,
    scales: &[208],
};

impl Layout {
    /// So many blocks of random bytes, each scale of which is drawn by `scale`.
    pub fn blocks(&self, random: &mut Random, count: usize, scale: Draw<u16>) -> Vec<u8> {
        let mut blocks = random.bytes(count * self.bytes);
        for block in blocks.chunks_exact_mut(self.bytes) {
            for &at in self.scales {
                set_scale(block, at, scale(random));
            }
        }
        blocks
    }
}

/// Writes a scale at a place of a block.
pub fn set_scale(block: &mut [u8], at: usize, scale: u16) {
    block[at..at + 2].copy_from_slice(&scale.to_le_bytes());
}

/// Draws one of a kind.
pub type Draw<T> = fn(&mut Random) -> T;

/// The kinds of a scale, each of either sign.
pub const SCALES: [Draw<u16>; 5] = [
    |random| half(random, 0x7C01, 0x7FFF),
    |random| half(random, 0x7C00, 0x7C00),
    |random| half(random, 0x0400, 0x7BFF),
    |random| half(random, 0x0001, 0x03FF),
    |random| half(random, 0x0000, 0x0000),
];

/// A scale of any kind.
pub fn any_scale(random: &mut Random) -> u16 {
    let kind = random.below(SCALES.len());
    SCALES[kind](random)
}

/// A scale as a trained network has it, 2^-12 up to 2^-4, of either sign.
pub fn trained_scale(random: &mut Random) -> u16 {
    half(random, 0x0C00, 0x2BFF)
}

/// A half of either sign, whose bits below the sign are from `low` to `high`.
fn half(random: &mut Random, low: u16, high: u16) -> u16 {
    let sign = random.u16() & 0x8000;
    sign | (low + random.below(usize::from(high - low) + 1) as u16)
}

/// The kinds of a float that fill a row: readings, with zeros among them too, whole numbers, floats
/// of many magnitudes, subnormal floats, and floats so large that a few of their products overflow.
const MOST: [Draw<f32>; 6] = [
    reading,
    |random| [reading(random), float(random, 0x0000_0000, 0x0000_0000)][random.below(2)],
    |random| random.below(1 << 25) as f32 - 16_777_216.0,
    |random| float(random, 0x2180_0000, 0x5D80_0000),
    |random| float(random, 0x0000_0001, 0x007F_FFFF),
    |random| float(random, 0x5E80_0000, 0x5F7F_FFFF),
];

/// The kinds of a float that stand in a row here and there: NaN, infinities, the largest floats,
/// subnormal floats, zeros, and any bits.
const SOME: [Draw<f32>; 6] = [
    |random| float(random, 0x7F80_0001, 0x7FFF_FFFF),
    |random| float(random, 0x7F80_0000, 0x7F80_0000),
    |random| float(random, 0x7F00_0000, 0x7F7F_FFFF),
    |random| float(random, 0x0000_0001, 0x007F_FFFF),
    |random| float(random, 0x0000_0000, 0x0000_0000),
    any_bits,
];

/// A float of about the magnitude of a reading, 2^-10 up to 2^6, of either sign.
pub fn reading(random: &mut Random) -> f32 {
    float(random, 0x3A80_0000, 0x427F_FFFF)
}

/// A float of any kind.
pub fn any_float(random: &mut Random) -> f32 {
    let kinds = [MOST, SOME][random.below(2)];
    kinds[random.below(kinds.len())](random)
}

/// A float of either sign, whose bits below the sign are from `low` to `high`.
fn float(random: &mut Random, low: u32, high: u32) -> f32 {
    let sign = random.u32() & 0x8000_0000;
    of_bits(sign | (low + random.below((high - low) as usize + 1) as u32))
}

/// A float of any bits.
pub fn any_bits(random: &mut Random) -> f32 {
    of_bits(random.u32())
}

/// The float of some bits. On another processor than x86-64, for which the library is not made, a
/// NaN is made a quiet one: there the compiler's code for a comparison lets a signalling NaN pass for
/// a number, on either side (docs/DIFFERENCES.md).
fn of_bits(bits: u32) -> f32 {
    let float = f32::from_bits(bits);
    if cfg!(target_arch = "x86_64") || !float.is_nan() {
        return float;
    }
    f32::from_bits(bits | 0x0040_0000)
}

/// A row of floats: most of one kind, and in every other row a few of another.
pub fn row(random: &mut Random, len: usize) -> Vec<f32> {
    let most = MOST[random.below(MOST.len())];
    let mut row: Vec<f32> = (0..len).map(|_| most(random)).collect();
    if len > 0 && random.below(2) == 0 {
        let some = SOME[random.below(SOME.len())];
        for _ in 0..=random.below(3) {
            row[random.below(len)] = some(random);
        }
    }
    row
}

/// The kinds of a block's largest magnitude: zero; so small that no scale comes of it, or hardly one;
/// tiny; about where a scale is flushed to zero; a reading's; about where one is sent to infinity;
/// huge; and an infinity.
const SWINGS: [Draw<f32>; 8] = [
    |random| float(random, 0x0000_0000, 0x0000_0000),
    |random| float(random, 0x0000_0001, 0x0000_007F),
    |random| float(random, 0x0000_0080, 0x397F_FFFF),
    |random| float(random, 0x3980_0000, 0x3C7F_FFFF),
    reading,
    |random| float(random, 0x4880_0000, 0x4B7F_FFFF),
    |random| float(random, 0x4B80_0000, 0x7F7F_FFFF),
    |random| float(random, 0x7F80_0000, 0x7F80_0000),
];

/// So many blocks of 32 readings, each with a swing of its own: its readings are parts of a largest
/// one, which stands at some place of it, and in every eighth block there is a NaN.
pub fn swings(random: &mut Random, blocks: usize) -> Vec<f32> {
    let mut readings = Vec::with_capacity(32 * blocks);
    for _ in 0..blocks {
        let swing = SWINGS[random.below(SWINGS.len())](random);
        let part = |random: &mut Random| random.below(1 << 24) as f32 / 8_388_608.0 - 1.0;
        let mut block: [f32; 32] = std::array::from_fn(|_| swing * part(random));
        if random.below(8) == 0 {
            block[random.below(32)] = f32::NAN;
        }
        block[random.below(32)] = swing;
        readings.extend(block);
    }
    readings
}

/// Two rows of a length. In a quarter of them every other product is the one before it, by one
/// distance of the lanes and the tree, with the other sign.
pub fn rows(random: &mut Random, len: usize) -> (Vec<f32>, Vec<f32>) {
    let mut x = row(random, len);
    let mut w = row(random, len);
    if random.below(4) == 0 {
        let far = [1, 2, 4, 8, 8_192][random.below(5)];
        for place in far..len {
            if place / far % 2 == 1 {
                x[place] = -x[place - far];
                w[place] = w[place - far];
            }
        }
    }
    (x, w)
}
