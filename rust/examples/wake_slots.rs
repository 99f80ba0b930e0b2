//! A layer of 2,048 readings and 16 outputs, in Q4_K, worked across wake slots: the same as
//! examples/wake_slots.c, and it prints the same.
//!
//! The logger wakes, works a few pieces, and sleeps again. Between two wakes only [`Kept`] stays. At
//! the last wake the rows are closed, and each output's bits are printed, as `fillin` prints them. At
//! the end each output is held against the row's dot in one go.
//!
//!     cargo run --example wake_slots
use jambharrow::{canonical_dot_q4k_fused, Layer, Progress, Refusal};
use std::process::ExitCode;

const LAYER: Layer = Layer {
    format: Layer::Q4_K,
    in_feat: 2_048,
    out_feat: 16,
};
const PIECES: usize = LAYER.pieces();
/// How many pieces a wake slot has time for.
const BUDGET: usize = 5;

/// What a call leaves behind for the next: on a logger, memory that keeps its content through a
/// sleep.
struct Kept {
    slots: [f32; PIECES],
    marks: [u8; PIECES],
}

impl Kept {
    /// Before the first wake: no piece is done.
    fn begin() -> Result<Kept, Refusal> {
        let mut kept = Kept {
            slots: [0.0; PIECES],
            marks: [0; PIECES],
        };
        LAYER.open(&mut kept.slots, &mut kept.marks)?;
        Ok(kept)
    }

    /// One wake slot: at most `BUDGET` pieces.
    fn wake(&mut self, weights: &[u8], readings: &[f32]) -> Result<Progress, Refusal> {
        LAYER.run(weights, readings, BUDGET, &mut self.slots, &mut self.marks)
    }

    /// Once no piece is open: every row's output.
    fn finish(&self) -> Result<[f32; LAYER.out_feat], Refusal> {
        let mut y = [0.0; LAYER.out_feat];
        for row in 0..LAYER.out_feat {
            LAYER.close(row, &self.slots, &self.marks, &mut y)?;
        }
        Ok(y)
    }
}

/// A byte with no pattern, for want of a logger.
fn made_up(place: usize) -> u8 {
    ((place as u32).wrapping_mul(0x9E37_79B9) >> 24) as u8
}

/// The weights, as they stand in flash memory: d and dmin of each block are near 2^-7.
fn weights() -> Result<Vec<u8>, Refusal> {
    let bytes = LAYER.weight_bytes()?;
    let mut weights: Vec<u8> = (0..bytes).map(made_up).collect();
    let blocks = LAYER.out_feat * (LAYER.in_feat / 256);
    for block in weights.chunks_exact_mut(bytes / blocks) {
        block[1] = 0x20;
        block[3] = 0x20;
    }
    Ok(weights)
}

/// The window that is answered: the same at every wake until the rows are closed.
fn readings() -> Vec<f32> {
    let reading = |place| f32::from(made_up(place)) / 64.0;
    (0..LAYER.in_feat).map(reading).collect()
}

/// All wakes of one window.
fn answer_window() -> Result<(), Refusal> {
    let (weights, readings) = (weights()?, readings());
    let mut kept = Kept::begin()?;
    for slot in 1.. {
        let Progress { done, left } = kept.wake(&weights, &readings)?;
        println!("wake {slot}: {done} done, {left} left");
        if left == 0 {
            break;
        }
    }
    let y = kept.finish()?;
    let mut same = 0;
    let rows = weights.chunks_exact(weights.len() / LAYER.out_feat);
    for (row, (output, packed)) in y.iter().zip(rows).enumerate() {
        println!("output {row}: {:08X}", output.to_bits());
        let in_one_go = canonical_dot_q4k_fused(&readings, packed, LAYER.in_feat)?;
        if in_one_go.to_bits() == output.to_bits() {
            same += 1;
        }
    }
    println!("in one go: {same} of {} the same", LAYER.out_feat);
    Ok(())
}

fn main() -> ExitCode {
    match answer_window() {
        Ok(()) => ExitCode::SUCCESS,
        Err(refusal) => {
            // The number and its words; of short weights, how many blocks there are and are needed.
            println!("{refusal}");
            ExitCode::FAILURE
        }
    }
}
