//! What document 01 says of the stepped layer's calls, in plain code: whether a call refuses, what
//! it answers, and every place that it writes. The sums and the tree are the Rust's.
use crate::block_counts::{of_layer, short};
use crate::formats::{self, Format};
use jambharrow::{Layer, Progress, Refusal, MOST_IN, MOST_OUT};
use oracle::inputs::Layout;
use oracle::ops::quant::{self, CANON_CHUNK};
use std::collections::HashMap;

/// A call, but for its layer and what is lent to it.
#[derive(Debug, Clone, Copy, PartialEq)]
pub enum SteppedCall {
    Open,
    Piece { row: usize, chunk: usize },
    Run { budget: usize },
    Close { row: usize },
}

/// How many places of each memory are lent to a call.
#[derive(Debug, Clone, Copy)]
pub struct Lengths {
    pub weights: usize,
    pub readings: usize,
    pub slots: usize,
    pub marks: usize,
    pub outputs: usize,
}

/// What a call does where it does not refuse: what it answers, of run alone, and the places that it
/// writes, with what it writes there.
#[derive(Debug, Default, PartialEq)]
pub struct Work {
    pub progress: Option<Progress>,
    pub slots: Vec<(usize, f32)>,
    pub marks: Vec<(usize, u8)>,
    pub outputs: Vec<(usize, f32)>,
}

/// A known format.
fn known(byte: u8) -> &'static Format {
    formats::named(byte).expect("a layer of a known format")
}

/// The layout of a known format.
pub fn layout(format: u8) -> &'static Layout {
    &known(format).layout
}

/// The chunks of a row.
pub fn chunks(layer: Layer) -> usize {
    layer.in_feat.div_ceil(CANON_CHUNK)
}

/// The bytes of a row.
pub fn row_bytes(layer: Layer) -> usize {
    let Layout { bytes, values, .. } = *layout(layer.format);
    layer.in_feat / values * bytes
}

/// What a layer needs of each memory.
pub fn needs(layer: Layer) -> Lengths {
    let pieces = layer.out_feat * chunks(layer);
    Lengths {
        weights: layer.out_feat * row_bytes(layer),
        readings: layer.in_feat,
        slots: pieces,
        marks: pieces,
        outputs: layer.out_feat,
    }
}

/// Why document 01 says no to a call.
pub fn refusal(layer: Layer, call: SteppedCall, lent: Lengths, marks: &[u8]) -> Option<Refusal> {
    if formats::named(layer.format).is_none() {
        return Some(Refusal::Unknown);
    }
    if layer.in_feat > MOST_IN || layer.out_feat > MOST_OUT {
        return Some(Refusal::TooLarge);
    }
    if layer.in_feat % 256 != 0 {
        return Some(Refusal::NotAMultiple);
    }
    let needs = needs(layer);
    let works = matches!(call, SteppedCall::Piece { .. } | SteppedCall::Run { .. });
    if works && lent.weights < needs.weights {
        let layout = layout(layer.format);
        let blocks = of_layer(layout, layer.in_feat, layer.out_feat);
        return Some(short(layout, lent.weights, blocks));
    }
    if works && lent.readings < needs.readings {
        return Some(Refusal::ReadingsShort);
    }
    let closes = matches!(call, SteppedCall::Close { .. });
    if lent.slots < needs.slots
        || lent.marks < needs.marks
        || closes && lent.outputs < needs.outputs
    {
        return Some(Refusal::RoomShort);
    }
    refusal_of_place(layer, call, marks)
}

/// Why document 01 says no to the row and the chunk of a call.
fn refusal_of_place(layer: Layer, call: SteppedCall, marks: &[u8]) -> Option<Refusal> {
    let chunks = chunks(layer);
    match call {
        SteppedCall::Open | SteppedCall::Run { .. } => None,
        SteppedCall::Piece { row, chunk } => {
            if row >= layer.out_feat || chunk >= chunks {
                return Some(Refusal::Outside);
            }
            let done = marks[row * chunks + chunk] != 0;
            done.then_some(Refusal::AlreadyDone)
        }
        SteppedCall::Close { row } => {
            if row >= layer.out_feat {
                return Some(Refusal::Outside);
            }
            let open = marks[row * chunks..][..chunks].contains(&0);
            open.then_some(Refusal::PieceOpen)
        }
    }
}

/// The weights and the readings of a history, which no call changes.
pub struct Input<'a> {
    pub w: &'a [u8],
    pub x: &'a [f32],
    /// The rows that were decoded before, by format, in_feat and row.
    decoded: HashMap<(u8, usize, usize), Vec<f32>>,
}

impl<'a> Input<'a> {
    pub fn new(w: &'a [u8], x: &'a [f32]) -> Input<'a> {
        Input {
            w,
            x,
            decoded: HashMap::new(),
        }
    }

    /// A row's packed weights.
    fn packed(&self, layer: Layer, row: usize) -> &'a [u8] {
        let bytes = row_bytes(layer);
        &self.w[row * bytes..][..bytes]
    }

    /// A row's weights, as the other side decodes them.
    fn decoded(&mut self, layer: Layer, row: usize) -> &[f32] {
        let packed = self.packed(layer, row);
        let key = (layer.format, layer.in_feat, row);
        let decode = known(layer.format).decode;
        let row = self.decoded.entry(key);
        row.or_insert_with(|| decode(packed).expect("a row is whole blocks"))
    }

    /// The sum of one chunk of one row.
    fn sum(&mut self, layer: Layer, row: usize, chunk: usize) -> f32 {
        let from = chunk * CANON_CHUNK;
        let to = layer.in_feat.min(from + CANON_CHUNK);
        let x = &self.x[from..to];
        quant::canonical_chunk(x, &self.decoded(layer, row)[from..to])
    }

    /// A row's dot in one go, as the other side has it: over the decoded row, and fused.
    pub fn in_one_go(&mut self, layer: Layer, row: usize) -> [f32; 2] {
        let n = layer.in_feat;
        let x = &self.x[..n];
        let fused = known(layer.format).fused_row_dot;
        let fused = fused(x, self.packed(layer, row), n).expect("a row is whole blocks");
        let decoded = self.decoded(layer, row);
        [quant::canonical_dot_pub(x, decoded, n), fused]
    }

    /// What document 01 has a call do that does not refuse.
    pub fn work(&mut self, layer: Layer, call: SteppedCall, slots: &[f32], marks: &[u8]) -> Work {
        let chunks = chunks(layer);
        let pieces = layer.out_feat * chunks;
        match call {
            SteppedCall::Open => Work {
                slots: (0..pieces).map(|place| (place, 0.0)).collect(),
                marks: (0..pieces).map(|place| (place, 0)).collect(),
                ..Work::default()
            },
            SteppedCall::Piece { row, chunk } => Work {
                slots: vec![(row * chunks + chunk, self.sum(layer, row, chunk))],
                marks: vec![(row * chunks + chunk, 1)],
                ..Work::default()
            },
            SteppedCall::Run { budget } => {
                let open: Vec<usize> = (0..pieces).filter(|&place| marks[place] == 0).collect();
                let next = &open[..budget.min(open.len())];
                let sum = |place: usize| self.sum(layer, place / chunks, place % chunks);
                let (done, left) = (next.len(), open.len() - next.len());
                Work {
                    progress: Some(Progress { done, left }),
                    marks: next.iter().map(|&place| (place, 1)).collect(),
                    slots: next
                        .iter()
                        .copied()
                        .zip(next.iter().copied().map(sum))
                        .collect(),
                    ..Work::default()
                }
            }
            SteppedCall::Close { row } => {
                let mut sums = slots[row * chunks..][..chunks].to_vec();
                Work {
                    outputs: vec![(row, quant::canonical_combine(&mut sums))],
                    ..Work::default()
                }
            }
        }
    }
}
