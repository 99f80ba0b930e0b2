//! A call that goes over packed blocks and writes as many places for each, whichever call it is: a
//! decoder writes floats, and a converter bytes.
use crate::compare::{Compared, Comparison, Difference};
use crate::held::{self, Place};
use crate::sample::{count, floats, Records, STOOD, STOOD_BYTE};
use jambharrow::{Refusal, MOST_BYTES};
use oracle::error::Result as RustResult;
use oracle::inputs::{any_scale, set_scale, trained_scale, Layout, SCALES};
use oracle::random::Random;

/// A call over packed blocks, on both sides. The other side is the Rust, or a reference where it has
/// no such call.
pub struct BlockCall<P: 'static> {
    pub layout: Layout,
    /// How many places are written for a block.
    pub places: usize,
    pub other: fn(&[u8]) -> RustResult<Vec<P>>,
    pub ours: fn(&[u8], &mut [P]) -> Result<(), Refusal>,
}

/// A place of an output.
pub trait Written: Place {
    /// What stands in it before the call of a stored record.
    const STOOD: Self;

    /// Memory before it is lent.
    fn memory(len: usize) -> Vec<Self>;

    /// An output as it is stored.
    fn stored(out: &[Self]) -> Vec<u8>;
}

impl Written for f32 {
    const STOOD: f32 = STOOD;

    fn memory(len: usize) -> Vec<f32> {
        held::memory(len)
    }

    fn stored(out: &[f32]) -> Vec<u8> {
        floats(out)
    }
}

impl Written for u8 {
    const STOOD: u8 = STOOD_BYTE;

    fn memory(len: usize) -> Vec<u8> {
        held::bytes(len)
    }

    fn stored(out: &[u8]) -> Vec<u8> {
        out.to_vec()
    }
}

/// The values of one run of blocks at most, of those that are compared by thousands.
const RUN: usize = 4_096;

impl<P: Written> BlockCall<P> {
    /// Compares the cases, each packed bytes and how many places the output has, as `case` does it;
    /// among them are so many runs of blocks.
    pub fn compare<F>(&self, comparison: &mut Comparison, runs: u64, case: F)
    where
        F: Fn(&[u8], usize) -> Compared + Sync,
    {
        let Layout {
            bytes,
            values,
            scales,
        } = self.layout;
        comparison.cases("every half as a scale", 1 << 16, |half| {
            let mut random = Random::new(half);
            let mut blocks = self.layout.blocks(&mut random, scales.len(), any_scale);
            for (block, &at) in blocks.chunks_exact_mut(bytes).zip(scales) {
                set_scale(block, at, half as u16);
            }
            case(&blocks, scales.len() * self.places)
        });
        comparison.cases("every byte at each place", 256 * bytes as u64, |number| {
            let mut random = Random::new(number);
            let mut block = self.layout.blocks(&mut random, 1, trained_scale);
            block[number as usize / 256] = number as u8;
            case(&block, self.places)
        });
        comparison.cases("runs of blocks", runs, |number| {
            let mut random = Random::new(number);
            let count = random.below(1 + RUN / values);
            let blocks = self.layout.blocks(&mut random, count, any_scale);
            case(&blocks, count * self.places + random.below(4))
        });
        let shapes = self.shapes();
        comparison.cases("lengths and rooms", shapes.len() as u64, |number| {
            let (len, room) = shapes[number as usize];
            case(&Random::new(number).bytes(len), room)
        });
    }

    /// Lengths of the packed bytes, and the output's places, around each boundary.
    fn shapes(&self) -> Vec<(usize, usize)> {
        let (bytes, places) = (self.layout.bytes, self.places);
        let around = |exact: usize| [exact.saturating_sub(1), exact, exact + 1];
        let mut shapes = Vec::new();
        for blocks in [0, 1, 2, 3, 17] {
            for len in around(blocks * bytes) {
                let exact = len / bytes * places;
                shapes.extend(around(exact).map(|room| (len, room)));
                shapes.extend([(len, 0), (len, exact + places)]);
            }
        }
        let whole = MOST_BYTES / bytes;
        shapes.extend(around(whole * places).map(|room| (whole * bytes, room)));
        for len in around(MOST_BYTES).into_iter().chain([(whole + 1) * bytes]) {
            shapes.extend([(len, 0), (len, places)]);
        }
        shapes
    }

    /// Holds ours to the other side, where that answers, and to documents 01 and 02. The output is a
    /// part of a larger memory, no other place of which may change.
    pub fn case(&self, bytes: &[u8], room: usize) -> Compared {
        let input = || self.shown(bytes, room);
        let at = 1 + room % 4;
        let before = P::memory(at + room + 1);
        let mut memory = before.clone();
        let ours = (self.ours)(bytes, &mut memory[at..at + room]);
        let refusal = self.refusal(bytes.len(), room);
        held::outcome(refusal, ours, input)?;
        let written = match refusal {
            None | Some(Refusal::NotWholeBlocks) => self.other_answers(bytes, refusal, input)?,
            Some(_) => Vec::new(),
        };
        held::places(at, &written, &before, &memory, input)
    }

    /// A case as it is shown: its first block, and how long its slices are.
    pub fn shown(&self, bytes: &[u8], room: usize) -> String {
        let first = bytes.iter().take(self.layout.bytes);
        let first: String = first.map(|byte| format!("{byte:02X}")).collect();
        format!("{} bytes {first}, {room} places", bytes.len())
    }

    /// Why the documents say no to so many bytes and places of output.
    pub fn refusal(&self, len: usize, room: usize) -> Option<Refusal> {
        if len > MOST_BYTES {
            Some(Refusal::TooLarge)
        } else if len % self.layout.bytes != 0 {
            Some(Refusal::NotWholeBlocks)
        } else if room < len / self.layout.bytes * self.places {
            Some(Refusal::RoomShort)
        } else {
            None
        }
    }

    /// What the other side writes, and nothing where it refuses. It has to refuse where document 01
    /// says that the Rust does.
    fn other_answers(
        &self,
        bytes: &[u8],
        refusal: Option<Refusal>,
        input: impl Fn() -> String,
    ) -> Result<Vec<P>, Difference> {
        let other = (self.other)(bytes);
        if other.is_err() == refusal.is_some() {
            return Ok(other.unwrap_or_default());
        }
        let shown = |refused| if refused { "a refusal" } else { "an answer" };
        Err(Difference {
            input: input(),
            wanted: shown(other.is_err()).into(),
            ours: shown(refusal.is_some()).into(),
        })
    }

    /// Two blocks for each kind of scale, no bytes, and each refusal that a small input can have. A
    /// payload is how many places the output has and how many packed bytes there are, the bytes,
    /// the number of the refusal, 0 for none, and what then stands in the output.
    pub fn sample(&self, records: &mut Records) {
        let Layout { bytes, .. } = self.layout;
        let mut random = Random::new(bytes as u64);
        let mut store = |packed: &[u8], room: usize| {
            let refusal = self.refusal(packed.len(), room);
            let mut out = vec![P::STOOD; room];
            if refusal.is_none() {
                let other = (self.other)(packed).expect("it answers for whole blocks");
                out[..other.len()].copy_from_slice(&other);
            }
            records.push(&[
                &count(room),
                &count(packed.len()),
                packed,
                &count(refusal.map_or(0, |refusal| refusal.number() as usize)),
                &P::stored(&out),
            ]);
        };
        for scale in SCALES {
            let blocks = self.layout.blocks(&mut random, 2, scale);
            store(&blocks, 2 * self.places + 1);
        }
        store(&[], 1);
        let blocks = self.layout.blocks(&mut random, 1, trained_scale);
        store(&blocks[1..], self.places);
        store(&[&blocks[..], &[0]].concat(), self.places);
        store(&blocks, self.places - 1);
    }
}
