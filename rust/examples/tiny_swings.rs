//! A window of 256 readings, packed as Q8_0 blocks: first a main at night, then a burst. The same as
//! examples/tiny_swings.c, and it prints the same.
//!
//! The swings of the night are so small that binary16 has no scale for them: their blocks would
//! decode to zeros. The quantizer says so, and the window is packed again in a finer unit, which is
//! kept beside the bytes.
//!
//!     cargo run --example tiny_swings
use jambharrow::{dequantize_q8_0, quantize_q8_0, Lost, Refusal};

const READINGS: usize = 256;
/// A block has 34 bytes and 32 readings.
const BLOCKS: usize = READINGS / 32;
const BYTES: usize = BLOCKS * 34;
/// How many of the finer unit make one: a power of two, so that no digit of a reading is lost.
const FINER: f32 = 1_024.0;

/// What is stored of a window: its blocks, and how many of their unit make one of the readings'.
struct Packed {
    units: f32,
    bytes: [u8; BYTES],
}

impl Packed {
    /// The readings in a unit of which `units` make one, and what their scales lost.
    fn in_units(readings: &[f32; READINGS], units: f32) -> Result<(Packed, Lost), Refusal> {
        let mut bytes = [0; BYTES];
        let lost = quantize_q8_0(&readings.map(|reading| reading * units), &mut bytes)?;
        Ok((Packed { units, bytes }, lost))
    }

    /// The readings in their own unit, or in the finer one where a scale was flushed to zero.
    fn of(readings: &[f32; READINGS]) -> Result<(Packed, Lost), Refusal> {
        let (packed, lost) = Packed::in_units(readings, 1.0)?;
        if lost.flushed > 0 {
            return Packed::in_units(readings, FINER);
        }
        Ok((packed, lost))
    }

    /// The readings that the packed window stands for.
    fn readings(&self) -> Result<[f32; READINGS], Refusal> {
        let mut readings = [0.0; READINGS];
        dequantize_q8_0(&self.bytes, &mut readings)?;
        Ok(readings.map(|reading| reading / self.units))
    }
}

/// Swings with no pattern, in bar, for want of a logger: of 0.004 at night, and of 0.5 behind it.
fn made_up() -> [f32; READINGS] {
    std::array::from_fn(|place| {
        let swing = if place < READINGS / 2 { 0.004 } else { 0.5 };
        let byte = ((place as u32).wrapping_mul(0x9E37_79B9) >> 24) as u8;
        (f32::from(byte) / 128.0 - 1.0) * swing
    })
}

/// Shows what was lost of a window, and what is left of its night, which is the first half.
fn show((packed, lost): &(Packed, Lost)) -> Result<(), Refusal> {
    let readings = packed.readings()?;
    let night = readings[..READINGS / 2].iter();
    let largest = night.fold(0.0, |largest: f32, reading| largest.max(reading.abs()));
    let (units, Lost { flushed, infinite }) = (packed.units, lost);
    println!(
        "units {units}: of {BLOCKS} scales {flushed} flushed, {infinite} sent to infinity; \
         largest at night {largest:.5}"
    );
    Ok(())
}

fn main() -> Result<(), Refusal> {
    let readings = made_up();
    show(&Packed::in_units(&readings, 1.0)?)?;
    let (packed, lost) = Packed::of(&readings)?;
    if lost != Lost::default() {
        println!("no unit serves: the window is kept as floats");
        return Ok(());
    }
    show(&(packed, lost))
}
