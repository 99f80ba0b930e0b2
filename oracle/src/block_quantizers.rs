//! The block quantizers. The Rust says nothing of what their scales lose: that is counted beside it, by
//! the scale of each block and the half that stands for it in the other side's bytes.
use crate::calls::Call;
use crate::compare::{Compared, Comparison, Difference};
use crate::held;
use crate::narrowing::judged;
use crate::q4_0_ggml;
use crate::sample::{count, floats, Records, STOOD_BYTE};
use jambharrow::{How, Lost, Refusal, MOST_FLOATS};
use oracle::inputs::{any_bits, reading, row, swings};
use oracle::ops::quant;
use oracle::random::Random;

pub const QUANTIZE_Q4_0: Call = Call {
    name: "quantize_q4_0",
    compare: |comparison| Q4_0.compare(comparison),
    sample: |records| Q4_0.sample(records),
};

pub const QUANTIZE_Q8_0: Call = Call {
    name: "quantize_q8_0",
    compare: |comparison| Q8_0.compare(comparison),
    sample: |records| Q8_0.sample(records),
};

pub const QUANTIZE_Q4_0_GGML: Call = Call {
    name: "quantize_q4_0_ggml",
    compare: |comparison| Q4_0_GGML.compare(comparison),
    sample: |records| Q4_0_GGML.sample(records),
};

const Q4_0: Quantizer = Quantizer {
    bytes: 18,
    scale: |block| (f64::from(largest(block)) / -8.0) as f32,
    other: quant::quantize_q4_0,
    ours: jambharrow::quantize_q4_0,
};

const Q8_0: Quantizer = Quantizer {
    bytes: 34,
    scale: |block| (f64::from(largest(block).abs()) / 127.0) as f32,
    other: quant::quantize_q8_0,
    ours: jambharrow::quantize_q8_0,
};

const Q4_0_GGML: Quantizer = Quantizer {
    other: q4_0_ggml::quantize,
    ours: jambharrow::quantize_q4_0_ggml,
    ..Q4_0
};

/// The readings of a block.
const VALUES: usize = 32;

/// The bits of the magnitudes at which a scale begins to be kept, or is no longer: where it is not
/// zero before it is stored, 2^-14, 2^16, each for Q4_0 and for Q8_0.
const EDGES: [u32; 6] = [
    0x0000_0005,
    0x0000_0040,
    0x3A00_0000,
    0x3BFE_0000,
    0x4900_0000,
    0x4AFE_0000,
];

/// How many magnitudes are taken on either side of an edge, at most.
const NEAR: u64 = 64;

/// A block quantizer, on both sides. The other side is the Rust, or its bytes in GGML's order by the
/// rule of the reference.
struct Quantizer {
    /// The bytes of a block.
    bytes: usize,
    /// The scale of a block before it is stored, by document 01.
    scale: fn(&[f32]) -> f32,
    other: fn(&[f32]) -> oracle::error::Result<Vec<u8>>,
    ours: fn(&[f32], &mut [u8]) -> Result<Lost, Refusal>,
}

/// The first reading of largest magnitude, where NaNs are none.
fn largest(block: &[f32]) -> f32 {
    let mut numbers = block.iter().copied().filter(|reading| !reading.is_nan());
    let most = numbers.clone().map(f32::abs).fold(0.0, f32::max);
    numbers.find(|reading| reading.abs() == most).unwrap_or(0.0)
}

impl Quantizer {
    fn compare(&self, comparison: &mut Comparison) {
        comparison.cases("blocks of floats of every class", 1 << 18, |number| {
            let mut random = Random::new(number);
            self.case(&row(&mut random, VALUES), self.bytes)
        });
        comparison.cases("blocks of any bits", 1 << 17, |number| {
            let mut random = Random::new(number);
            let block: Vec<f32> = (0..VALUES).map(|_| any_bits(&mut random)).collect();
            self.case(&block, self.bytes)
        });
        comparison.cases(
            "blocks whose largest magnitude has either sign",
            1 << 16,
            |number| {
                let mut random = Random::new(number);
                let largest = reading(&mut random) * 64.0;
                let mut block: Vec<f32> = (0..VALUES).map(|_| reading(&mut random)).collect();
                for _ in 0..1 + random.below(4) {
                    let place = random.below(VALUES);
                    block[place] = [largest, -largest][random.below(2)];
                }
                self.case(&block, self.bytes)
            },
        );
        comparison.cases("runs of blocks of any swings", 1 << 18, |number| {
            let mut random = Random::new(number);
            let blocks = random.below(128);
            let room = blocks * self.bytes + random.below(4);
            self.case(&swings(&mut random, blocks), room)
        });
        let edges = EDGES.len() as u64 * 2 * (2 * NEAR + 1);
        comparison.cases(
            "blocks at the edges of what a scale keeps",
            edges,
            |number| self.case(&at_an_edge(number), self.bytes),
        );
        comparison.cases("runs of blocks", 1 << 10, |number| {
            let mut random = Random::new(number);
            let blocks = random.below(128);
            let room = blocks * self.bytes + random.below(4);
            self.case(&row(&mut random, blocks * VALUES), room)
        });
        let shapes = self.shapes();
        comparison.cases("lengths and rooms", shapes.len() as u64, |number| {
            let (len, room) = shapes[number as usize];
            self.case(&row(&mut Random::new(number), len), room)
        });
    }

    /// Counts of readings, and the output's places, around each boundary.
    fn shapes(&self) -> Vec<(usize, usize)> {
        let around = |exact: usize| [exact.saturating_sub(1), exact, exact + 1];
        let mut shapes = Vec::new();
        for blocks in [0, 1, 2, 3, 17, MOST_FLOATS / VALUES] {
            for len in around(blocks * VALUES) {
                let exact = len / VALUES * self.bytes;
                shapes.extend(around(exact).map(|room| (len, room)));
                shapes.extend([(len, 0), (len, exact + self.bytes)]);
            }
        }
        shapes.extend([(MOST_FLOATS + VALUES, 0), (MOST_FLOATS + VALUES, 1 << 20)]);
        shapes
    }

    /// Holds ours to the other side, where that answers, and to document 01. The output is a part of a
    /// larger memory, no other place of which may change.
    fn case(&self, data: &[f32], room: usize) -> Compared {
        let input = || {
            let first = data.iter().take(VALUES);
            let first: Vec<String> = first.map(|x| format!("{:08X}", x.to_bits())).collect();
            format!("{} readings {}, {room} places", data.len(), first.join(" "))
        };
        let at = 1 + room % 4;
        let before = held::bytes(at + room + 1);
        let mut memory = before.clone();
        let ours = (self.ours)(data, &mut memory[at..at + room]);
        let refusal = self.refusal(data.len(), room);
        held::outcome(refusal, ours.map(|_| ()), input)?;
        let written = match refusal {
            None | Some(Refusal::NotAMultiple) => self.other_answers(data, refusal, input)?,
            Some(_) => Vec::new(),
        };
        held::places(at, &written, &before, &memory, input)?;
        let lost = self.lost(data, &written);
        if refusal.is_none() && ours.ok() != lost {
            return Err(Difference {
                input: input(),
                wanted: format!("{lost:?}"),
                ours: format!("{:?}", ours.ok()),
            });
        }
        Ok(written.len() as u64 / self.bytes as u64 * VALUES as u64)
    }

    /// What the scales of blocks lost, by the halves that stand for them in their bytes; nothing
    /// where a half is not made of its scale.
    fn lost(&self, data: &[f32], bytes: &[u8]) -> Option<Lost> {
        let mut lost = Lost::default();
        for (readings, block) in data.chunks(VALUES).zip(bytes.chunks(self.bytes)) {
            let half = u16::from_le_bytes([block[0], block[1]]);
            match judged((self.scale)(readings), half)? {
                How::Exact | How::Cut => {}
                How::Flushed => lost.flushed += 1,
                How::SentToInfinity => lost.infinite += 1,
            }
        }
        Some(lost)
    }

    /// Why document 01 says no to so many readings and places of output.
    fn refusal(&self, len: usize, room: usize) -> Option<Refusal> {
        if len > MOST_FLOATS {
            Some(Refusal::TooLarge)
        } else if len % VALUES != 0 {
            Some(Refusal::NotAMultiple)
        } else if room < len / VALUES * self.bytes {
            Some(Refusal::RoomShort)
        } else {
            None
        }
    }

    /// The other side's bytes, none where it refuses, as it must where document 01 has that from the
    /// Rust.
    fn other_answers(
        &self,
        data: &[f32],
        refusal: Option<Refusal>,
        input: impl Fn() -> String,
    ) -> Result<Vec<u8>, Difference> {
        let other = (self.other)(data);
        if other.is_err() == refusal.is_some() {
            return Ok(other.unwrap_or_default());
        }
        Err(Difference {
            input: input(),
            wanted: format!("the other side's {other:?}"),
            ours: format!("{refusal:?}"),
        })
    }

    /// Blocks of every class, the bench card's, no readings, and each refusal that a small input
    /// can have. A payload is the output's places and the readings, each after its number; the
    /// refusal's number; how many scales were flushed and how many sent to infinity, none where it
    /// refuses; and what then stands in the output.
    fn sample(&self, records: &mut Records) {
        let mut random = Random::new(self.bytes as u64);
        let mut store = |data: &[f32], room: usize| {
            let refusal = self.refusal(data.len(), room);
            let (mut out, mut lost) = (vec![STOOD_BYTE; room], Lost::default());
            if refusal.is_none() {
                let other = (self.other)(data).expect("it answers for whole blocks");
                out[..other.len()].copy_from_slice(&other);
                lost = self.lost(data, &other).expect("a half of each scale");
            }
            records.push(&[
                &count(room),
                &count(data.len()),
                &floats(data),
                &count(refusal.map_or(0, |refusal| refusal.number() as usize)),
                &[count(lost.flushed), count(lost.infinite)].concat(),
                &out,
            ]);
        };
        store(&[0.0; VALUES], self.bytes);
        let mut eight = [0.0; VALUES];
        eight[0] = 8.0;
        store(&eight, self.bytes);
        for _ in 0..64 {
            store(&row(&mut random, 2 * VALUES), 2 * self.bytes + 1);
        }
        store(&[], 1);
        store(&[1.0; VALUES - 1], self.bytes);
        store(&[1.0; VALUES + 1], self.bytes);
        store(&[1.0; VALUES], self.bytes - 1);
    }
}

/// A block whose largest magnitude is at an edge or near it, of either sign; its other readings are
/// all zero, or all half of that.
fn at_an_edge(number: u64) -> [f32; VALUES] {
    let edges = EDGES.len() as u64;
    let (edge, sign, near) = (number % edges, number / edges % 2, number / edges / 2);
    let bits = (u64::from(EDGES[edge as usize]) + near).saturating_sub(NEAR) as u32;
    let largest = f32::from_bits(bits | (sign as u32) << 31);
    let mut random = Random::new(number);
    let part = [0.0, largest / 2.0][random.below(2)];
    let mut block = [part; VALUES];
    block[random.below(VALUES)] = largest;
    block
}

#[cfg(test)]
mod tests {
    use super::*;

    /// What the other side's scales of these readings lost.
    fn lost(quantizer: &Quantizer, data: &[f32]) -> Lost {
        let bytes = (quantizer.other)(data).expect("whole blocks");
        quantizer.lost(data, &bytes).expect("a half of each scale")
    }

    #[test]
    fn scales_of_swings_are_lost_either_way_or_kept() {
        let data = swings(&mut Random::new(1), 4_096);
        for quantizer in [Q4_0, Q8_0] {
            let Lost { flushed, infinite } = lost(&quantizer, &data);
            let kept = 4_096 - flushed - infinite;
            assert!([flushed, infinite, kept].iter().all(|&blocks| blocks > 512));
        }
    }

    #[test]
    fn an_edge_is_met_from_both_sides() {
        let at = |edge: u64, near: u64| at_an_edge(near * 12 + edge);
        for (quantizer, edges) in [(Q4_0, [0, 2, 4]), (Q8_0, [1, 3, 5])] {
            let counts = |edge, near| {
                let Lost { flushed, infinite } = lost(&quantizer, &at(edge, near));
                [flushed, infinite]
            };
            let [not_zero, stored, too_large] = edges;
            let beside = |edge| [counts(edge, NEAR - 1), counts(edge, NEAR)];
            assert_eq!(beside(not_zero), [[0, 0], [1, 0]]);
            assert_eq!(beside(stored), [[1, 0], [0, 0]]);
            assert_eq!(beside(too_large), [[0, 0], [0, 1]]);
        }
    }

    #[test]
    fn a_half_of_another_scale_is_seen() {
        let data = [1.0; VALUES];
        let mut bytes = (Q8_0.other)(&data).expect("a whole block");
        bytes[1] += 1;
        assert_eq!(Q8_0.lost(&data, &bytes), None);
    }
}
