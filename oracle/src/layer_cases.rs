//! What a layer is asked: its sizes, how long its slices are, and of which kind its weights.
use crate::layers::{Kind, Layer};
use jambharrow::{MOST_BATCH, MOST_IN, MOST_OUT};
use oracle::inputs::Layout;
use oracle::random::Random;

#[derive(Debug, Clone, Copy)]
pub struct Sizes {
    pub batch: usize,
    pub in_feat: usize,
    pub out_feat: usize,
}

/// How long each slice is.
#[derive(Debug, Clone, Copy)]
pub struct Lengths {
    pub readings: usize,
    pub bytes: usize,
    pub places: usize,
    pub scratch: usize,
}

#[derive(Debug, Clone, Copy, PartialEq)]
pub enum Weights {
    /// As a trained network has them.
    Shipped,
    /// Any bytes.
    Random,
    /// Shipped ones of which a few bits are flipped.
    Flipped,
    /// Shipped ones with NaN and infinite scales among them.
    Unreal,
    /// Those of document 01's worked case: d is -1, dmin 1, and the rest 0, as are the readings.
    Worked,
}

const WEIGHTS: [Weights; 4] = [
    Weights::Shipped,
    Weights::Random,
    Weights::Flipped,
    Weights::Unreal,
];

#[derive(Debug, Clone, Copy)]
pub struct Asked {
    pub sizes: Sizes,
    pub lengths: Lengths,
    pub weights: Weights,
}

/// The sizes of the layers that are compared: every batch and out_feat up to these.
const BATCH: usize = 5;
const OUT_FEAT: usize = 33;

/// The in_feat of layers whose rows are whole blocks, of 256 and of 32 values.
const ROWS_OF_256: [usize; 7] = [0, 256, 512, 1_024, 2_048, 4_096, MOST_IN];
const ROWS_OF_32: [usize; 7] = [0, 32, 64, 256, 1_024, 4_096, MOST_IN];

/// The in_feat of rows that are not whole blocks of 256, and the least out_feat that makes whole
/// blocks of them together.
const SHARING: [(usize, usize); 11] = [
    (1, 256),
    (3, 256),
    (32, 8),
    (85, 256),
    (127, 256),
    (128, 2),
    (129, 256),
    (192, 4),
    (255, 256),
    (257, 256),
    (4_224, 2),
];

/// What a layer is asked, in groups, of which each has a name.
pub fn groups(layer: &Layer) -> Vec<(&'static str, Vec<Asked>)> {
    let mut groups = vec![
        ("layers of every shape", every_shape(layer)),
        ("weights cut and lengthened", cut_and_lengthened(layer)),
        ("lengths around each need", around_needs(layer)),
        ("sizes around each most", around_mosts(layer)),
    ];
    if shares_blocks(layer) {
        groups.push((
            "rows that share a block",
            sharing()
                .flat_map(|sizes| WEIGHTS.map(|weights| exact(layer, sizes, weights)))
                .collect(),
        ));
    }
    groups
}

/// How many layers of few blocks are compared: they take little time, so that there are many.
pub const OF_FEW_BLOCKS: u64 = 10_000_000;

/// A layer of one or two rows of one or two blocks, of any kind of weights.
pub fn of_few_blocks(layer: &Layer, random: &mut Random) -> Asked {
    let sizes = sizes(
        1 + random.below(2),
        layer.layout.values * (1 + random.below(2)),
        1 + random.below(2),
    );
    exact(layer, sizes, WEIGHTS[random.below(WEIGHTS.len())])
}

/// Whether a row may begin inside a block.
fn shares_blocks(layer: &Layer) -> bool {
    matches!(layer.kind, Kind::Cpu { .. }) && layer.layout.values == 256
}

/// What the sizes need, and nothing more.
fn exact(layer: &Layer, sizes: Sizes, weights: Weights) -> Asked {
    Asked {
        sizes,
        lengths: layer.needs(sizes),
        weights,
    }
}

/// The shapes up to BATCH and OUT_FEAT over rows of each length.
fn shapes(layer: &Layer) -> impl Iterator<Item = Sizes> {
    let rows = match layer.layout.values {
        256 => ROWS_OF_256,
        _ => ROWS_OF_32,
    };
    rows.into_iter().flat_map(|in_feat| {
        (0..=BATCH).flat_map(move |batch| {
            (0..=OUT_FEAT).map(move |out_feat| Sizes {
                batch,
                in_feat,
                out_feat,
            })
        })
    })
}

/// Each shape with weights of every kind; of the longest rows one kind each. Where a layer takes
/// more than it needs, some have more. Last comes document 01's worked case.
fn every_shape(layer: &Layer) -> Vec<Asked> {
    let mut all = Vec::new();
    for (number, sizes) in shapes(layer).enumerate() {
        let kinds = match sizes.in_feat {
            MOST_IN => &WEIGHTS[number % WEIGHTS.len()..][..1],
            _ => &WEIGHTS[..],
        };
        for &weights in kinds {
            let mut asked = exact(layer, sizes, weights);
            let more = number % 3;
            match layer.kind {
                Kind::WholeBlocks { .. } => {
                    asked.lengths.readings += more;
                    asked.lengths.bytes += more * 77;
                    asked.lengths.places += more;
                }
                Kind::Cpu { .. } => asked.lengths.scratch += more,
            }
            all.push(asked);
        }
    }
    all.push(worked(layer));
    all
}

/// One block against one row of readings, document 01's worked case.
fn worked(layer: &Layer) -> Asked {
    let sizes = Sizes {
        batch: 1,
        in_feat: layer.layout.values,
        out_feat: 1,
    };
    exact(layer, sizes, Weights::Worked)
}

/// Each shape of short rows with weights that were cut or lengthened.
fn cut_and_lengthened(layer: &Layer) -> Vec<Asked> {
    let block = layer.layout.bytes;
    let short = shapes(layer).filter(|sizes| sizes.in_feat <= 1_024);
    let mut all = Vec::new();
    for (number, sizes) in short.enumerate() {
        let bytes = layer.needs(sizes).bytes;
        let lengths = [
            bytes / 2,
            bytes.saturating_sub(block),
            bytes.saturating_sub(1),
            bytes + 1,
            bytes + block,
        ];
        for length in lengths {
            let mut asked = exact(layer, sizes, WEIGHTS[number % WEIGHTS.len()]);
            asked.lengths.bytes = length;
            all.push(asked);
        }
    }
    all
}

/// Layers of few blocks, whose slices have each nothing, one too few, as many as needed and more.
fn around_needs(layer: &Layer) -> Vec<Asked> {
    let block = layer.layout.bytes;
    let mut all = Vec::new();
    for in_feat in [0, 1, 31, 32, 33, 128, 255, 256, 257, 512, 4_352] {
        for (batch, out_feat) in [(0, 0), (0, 1), (1, 0), (1, 1), (1, 2), (2, 3)] {
            let sizes = Sizes {
                batch,
                in_feat,
                out_feat,
            };
            let needs = layer.needs(sizes);
            let mut of_bytes = around(needs.bytes);
            of_bytes.extend([1, needs.bytes.saturating_sub(block), needs.bytes + block]);
            let of_scratch = match layer.kind {
                Kind::WholeBlocks { .. } => vec![0],
                Kind::Cpu { .. } => around(needs.scratch),
            };
            for bytes in of_bytes {
                for readings in around(needs.readings) {
                    for places in around(needs.places) {
                        for &scratch in &of_scratch {
                            all.push(Asked {
                                sizes,
                                lengths: Lengths {
                                    readings,
                                    bytes,
                                    places,
                                    scratch,
                                },
                                weights: Weights::Shipped,
                            });
                        }
                    }
                }
            }
        }
    }
    all
}

/// Nothing, one too few, as many as needed, and one more.
fn around(exact: usize) -> Vec<usize> {
    let mut lengths = vec![0, exact.saturating_sub(1), exact, exact + 1];
    lengths.dedup();
    lengths
}

/// The longest slice that is made for sizes around their most.
const LONGEST: usize = 1 << 24;

/// Sizes around their most, each with slices of nothing, and with what they need where that is not
/// too much to make.
fn around_mosts(layer: &Layer) -> Vec<Asked> {
    let sizes = [
        (MOST_BATCH, 256, 1),
        (MOST_BATCH + 1, 256, 1),
        (MOST_BATCH, 0, 3),
        (1, 0, MOST_OUT),
        (1, 0, MOST_OUT + 1),
        (1, 256, MOST_OUT),
        (0, 256, MOST_OUT + 1),
        (1, MOST_IN, 1),
        (1, MOST_IN + 1, 1),
        (1, MOST_IN + 256, 1),
        (MOST_BATCH, MOST_IN, MOST_OUT),
        (usize::MAX, 0, 0),
        (0, usize::MAX, 0),
        (0, 0, usize::MAX),
        (usize::MAX, usize::MAX, usize::MAX),
    ];
    let mut all = Vec::new();
    for (batch, in_feat, out_feat) in sizes {
        let sizes = Sizes {
            batch,
            in_feat,
            out_feat,
        };
        let asked = exact(layer, sizes, Weights::Shipped);
        let Lengths {
            readings,
            bytes,
            places,
            scratch,
        } = asked.lengths;
        if [readings, bytes, places, scratch]
            .iter()
            .all(|&length| length <= LONGEST)
        {
            all.push(asked);
        }
        all.push(Asked {
            lengths: Lengths {
                readings: 0,
                bytes: 0,
                places: 0,
                scratch: 0,
            },
            ..asked
        });
    }
    all
}

/// The shapes of rows that share a block.
fn sharing() -> impl Iterator<Item = Sizes> {
    SHARING.into_iter().flat_map(|(in_feat, least)| {
        (0..4).flat_map(move |batch| {
            [least, 2 * least].map(|out_feat| Sizes {
                batch,
                in_feat,
                out_feat,
            })
        })
    })
}

/// What is stored of a layer.
pub fn sample(layer: &Layer) -> Vec<Asked> {
    let mut all = answered(layer);
    all.extend(around_what_is_needed(layer));
    all
}

/// Layers of no rows, of long ones and of each kind of weights, with what they need.
fn answered(layer: &Layer) -> Vec<Asked> {
    let values = layer.layout.values;
    // A row longer than a chunk.
    let mut shapes = vec![(1, 8_192 + values, 2)];
    shapes.extend([
        (0, values, 1),
        (1, values, 0),
        (1, 0, 2),
        (3, 2 * values, 2),
    ]);
    if shares_blocks(layer) {
        shapes.extend([(1, 128, 2), (2, 3, 256)]);
    }
    let mut all: Vec<Asked> = shapes
        .into_iter()
        .map(|(batch, in_feat, out_feat)| {
            exact(layer, sizes(batch, in_feat, out_feat), Weights::Shipped)
        })
        .collect();
    all.extend(WEIGHTS.map(|weights| exact(layer, sizes(2, values, 3), weights)));
    all.push(worked(layer));
    all
}

/// A layer with more or less of each thing than it needs, and sizes that no layer has.
fn around_what_is_needed(layer: &Layer) -> Vec<Asked> {
    let Layout { bytes, values, .. } = layer.layout;
    let whole = exact(layer, sizes(2, values, 2), Weights::Shipped);
    let changed = |change: &dyn Fn(&mut Lengths)| {
        let mut asked = whole;
        change(&mut asked.lengths);
        asked
    };
    vec![
        changed(&|lengths| lengths.readings += 1),
        changed(&|lengths| lengths.bytes += 1),
        changed(&|lengths| lengths.places += 1),
        changed(&|lengths| lengths.scratch += 1),
        changed(&|lengths| lengths.readings -= 1),
        changed(&|lengths| lengths.bytes -= 1),
        changed(&|lengths| lengths.places -= 1),
        changed(&|lengths| lengths.scratch = lengths.scratch.saturating_sub(1)),
        exact(layer, sizes(1, values - 1, 1), Weights::Shipped),
        Asked {
            sizes: sizes(1, MOST_IN + 1, 1),
            ..whole
        },
        // A whole block too few, and one too many.
        changed(&|lengths| lengths.bytes -= bytes),
        changed(&|lengths| lengths.bytes += bytes),
    ]
}

fn sizes(batch: usize, in_feat: usize, out_feat: usize) -> Sizes {
    Sizes {
        batch,
        in_feat,
        out_feat,
    }
}
