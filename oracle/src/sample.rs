//! The stored sample of the Rust's answers, which the program `replay` of the gate holds ours to.
use crate::calls::CALLS;
use crate::wrong_answers::FAMILIES;
use std::fs;
use std::io;
use std::path::Path;

/// What stands in each place of an output before the call of a stored record.
pub const STOOD: f32 = -1.5;
/// The same where the output is bytes.
pub const STOOD_BYTE: u8 = 0xEE;

/// The tag of the record that stands behind those of a call. Its payload is the call's name.
const NAME: u8 = 255;

/// The payloads stored of one call, each in its parts: the input, then the answer. The answer is the
/// Rust's, or a reference's where it has no such call; where there is none, it is document 01's
/// refusal.
#[derive(Default)]
pub struct Records {
    pub payloads: Vec<Vec<Vec<u8>>>,
}

impl Records {
    /// Stores a payload, given in parts.
    pub fn push(&mut self, payload: &[&[u8]]) {
        let parts = payload.iter().map(|part| part.to_vec());
        self.payloads.push(parts.collect());
    }
}

/// A count as a little-endian u32.
pub fn count(count: usize) -> [u8; 4] {
    let count = u32::try_from(count).expect("what is stored is far below 2^32");
    count.to_le_bytes()
}

/// The bits of floats, each as a little-endian u32.
pub fn floats(floats: &[f32]) -> Vec<u8> {
    floats
        .iter()
        .flat_map(|float| float.to_bits().to_le_bytes())
        .collect()
}

/// The sample, and the text that the replay prints of it.
#[derive(Default)]
struct Sample {
    bytes: Vec<u8>,
    text: String,
}

impl Sample {
    /// A record is a tag, the payload's length as a little-endian u32, and the payload.
    fn record(&mut self, tag: u8, payload: &[u8]) {
        self.bytes.push(tag);
        self.bytes.extend(count(payload.len()));
        self.bytes.extend(payload);
    }

    /// The record behind `answers` others, of which the replay is to say that `differ` differ.
    fn name(&mut self, name: &str, answers: usize, differ: usize) {
        self.record(NAME, name.as_bytes());
        self.text += &format!("{name}: {answers} answers, {differ} differ\n");
    }
}

/// Writes the sample, and the text that the replay prints where no answer differs but those that are
/// made wrong.
pub fn write() -> io::Result<()> {
    let mut sample = Sample::default();
    let mut stored = Vec::new();
    for (tag, call) in (0..).zip(&CALLS) {
        let mut records = Records::default();
        (call.sample)(&mut records);
        for payload in &records.payloads {
            sample.record(tag, &payload.concat());
        }
        sample.name(call.name, records.payloads.len(), 0);
        stored.push((tag, call.name, records));
    }
    for family in &FAMILIES {
        for wrong in family.answers {
            let (tag, _, records) = stored
                .iter()
                .find(|(_, name, _)| *name == wrong.call)
                .expect("every call is stored");
            sample.record(*tag, &wrong.payload(records));
        }
        let name = format!("wrong answers of {}", family.name);
        sample.name(&name, family.answers.len(), family.answers.len());
    }
    let replay = Path::new(env!("CARGO_MANIFEST_DIR")).join("../crates/replay");
    fs::write(replay.join("stdin"), &sample.bytes)?;
    fs::write(replay.join("stdout"), &sample.text)?;
    print!("{}", sample.text);
    println!("{} bytes in crates/replay/stdin", sample.bytes.len());
    Ok(())
}
