//! A month of windows as a record file, and how long the row dots of such a file take alone.
use crate::record_files::{Layer, Reader, Record, MOST_IN_FEAT, MOST_OUT_FEAT};
use crate::record_makers::{layer_of, window};
use jambharrow::Refusal;
use oracle::error::Error;
use oracle::inputs::{reading, trained_scale};
use oracle::ops::quant;
use oracle::random::Random;
use std::fmt::Debug;
use std::fs::{self, File};
use std::hint::black_box;
use std::io::{self, BufWriter, Write};
use std::time::{Duration, Instant};

/// The windows of a month, one a minute.
pub const WINDOWS: u64 = 43_200;

/// Of so many windows about one is a warm-up window.
const ONE_WARM_UP_OF: usize = 100;

/// Writes a month: the largest layer in a format, and so many windows.
pub fn write(name: &str, format: u8, windows: u64) -> io::Result<()> {
    let mut random = Random::new(u64::from(format));
    let mut file = BufWriter::new(File::create(name)?);
    let layer = layer_of(
        &mut random,
        format,
        MOST_IN_FEAT,
        MOST_OUT_FEAT,
        trained_scale,
    );
    file.write_all(&layer)?;
    let mut warm_up = 0;
    for _ in 0..windows {
        let mut readings: Vec<f32> = (0..MOST_IN_FEAT).map(|_| reading(&mut random)).collect();
        if random.below(ONE_WARM_UP_OF) == 0 {
            readings[..1 + random.below(MOST_IN_FEAT)].fill(0.0);
            warm_up += 1;
        }
        file.write_all(&window(&readings))?;
    }
    file.flush()?;
    println!("{name}: a layer of format {format}, {windows} windows, {warm_up} of them warm-up");
    Ok(())
}

/// How often each side is timed.
const ROUNDS: usize = 5;

/// Readings, packed bytes, the output, batch, in_feat and out_feat.
type Linear<E> = fn(&[f32], &[u8], &mut [f32], usize, usize, usize) -> Result<(), E>;

/// Both sides of a layer of a format; the Rust has no Q5_K.
fn sides(format: u8) -> (Linear<Refusal>, Option<Linear<Error>>) {
    match format {
        4 => (
            jambharrow::linear_q4_k_fused,
            Some(quant::linear_q4_k_fused),
        ),
        5 => (jambharrow::linear_q5_k_fused, None),
        _ => (
            jambharrow::linear_q6_k_fused,
            Some(quant::linear_q6_k_fused),
        ),
    }
}

/// A layer and the readings of the windows that are answered for it, one after another.
struct Work<'a> {
    layer: Layer<'a>,
    readings: Vec<f32>,
}

/// Prints how long the row dots of a file take, by ours and, where the Rust has every format of the
/// file, by the Rust's. The sides take turns.
pub fn time_dots(name: &str) -> Result<(), String> {
    let file = fs::read(name).map_err(|error| format!("{name}: {error}"))?;
    let work = work_of(&file).map_err(|stop| format!("{name}: {stop}"))?;
    let windows: usize = work.iter().map(windows_of).sum();
    let mut ours = Vec::new();
    let mut rust = Vec::new();
    for _ in 0..ROUNDS {
        ours.extend(time(&work, |format| Some(sides(format).0)));
        rust.extend(time(&work, |format| sides(format).1));
    }
    println!("{windows} windows answered; the row dots alone, median of {ROUNDS}:");
    let ours = median(ours);
    if rust.is_empty() {
        println!("ours {ours:.3} s; the Rust has no Q5_K");
        return Ok(());
    }
    let rust = median(rust);
    println!(
        "ours {ours:.3} s, the Rust {rust:.3} s, ratio {:.2}",
        ours / rust
    );
    Ok(())
}

/// The layers of a file with their windows, or where and why it cannot be read on.
fn work_of(file: &[u8]) -> Result<Vec<Work<'_>>, String> {
    let mut work: Vec<Work> = Vec::new();
    let mut reader = Reader::of(file);
    while let Some(record) = reader.next() {
        match record {
            Ok(Record::Layer(layer)) => work.push(Work {
                layer,
                readings: Vec::new(),
            }),
            Ok(Record::Window(_, mut readings)) => {
                let latest = work.last_mut().expect("a window comes after its layer");
                latest.readings.append(&mut readings);
            }
            Ok(Record::WarmUp) => {}
            Err(number) => return Err(format!("stop {number} {}", reader.offset)),
        }
    }
    Ok(work)
}

fn windows_of(work: &Work) -> usize {
    work.readings.len() / work.layer.in_feat
}

/// How long one side takes for all windows, one layer of one window at a time, where it has the
/// formats of all of them.
fn time<E: Debug>(work: &[Work], side: impl Fn(u8) -> Option<Linear<E>>) -> Option<Duration> {
    let start = Instant::now();
    for Work { layer, readings } in work {
        let linear = black_box(side(layer.format.byte)?);
        let (in_feat, out_feat) = (layer.in_feat, layer.out_feat);
        let mut outputs = [0.0; MOST_OUT_FEAT];
        for readings in readings.chunks_exact(in_feat) {
            let outputs = black_box(&mut outputs[..out_feat]);
            linear(readings, layer.weights, outputs, 1, in_feat, out_feat)
                .expect("the reader has checked the sizes");
        }
    }
    Some(start.elapsed())
}

fn median(mut times: Vec<Duration>) -> f64 {
    times.sort();
    times[times.len() / 2].as_secs_f64()
}
