//! Small record files for every clause of the reader's order, each with the last line that document
//! 01 gives it.
use crate::record_makers::{example, example_block, layer, record, window};
use crate::sample::count;

/// A file and what its transcript ends with.
pub struct Case {
    pub file: Vec<u8>,
    pub last: String,
}

/// A whole file.
fn whole(records: &[&[u8]], answered: usize, refused: usize) -> Case {
    Case {
        file: records.concat(),
        last: format!("end {answered} {refused}"),
    }
}

/// A file that stops behind `before`, at the bytes `bad`.
fn stops(number: u32, before: &[u8], bad: &[u8]) -> Case {
    Case {
        file: [before, bad].concat(),
        last: format!("stop {number} {}", before.len()),
    }
}

/// Bad bytes with which a file begins, and the same behind a layer.
fn both(number: u32, bad: &[u8]) -> [Case; 2] {
    let before = small_layer();
    [stops(number, &[], bad), stops(number, &before, bad)]
}

/// The layer of document 01's example, 256 to 1 in Q4_K.
fn small_layer() -> Vec<u8> {
    layer(4, 256, 1, &example_block())
}

/// A layer of 256 to 1 in Q5_K: the example's block, in which the first 32 weights have their fifth
/// bits.
fn small_layer_q5k() -> Vec<u8> {
    let block = example_block();
    let block = [&block[..16], &[1; 32], &block[16..]].concat();
    layer(5, 256, 1, &block)
}

/// A layer of 256 to 1 in Q6_K, whose weights are all -32 times its scales of 1 and d = 1.
fn small_layer_q6k() -> Vec<u8> {
    let mut block = [0; 210];
    block[192..208].fill(1);
    block[208..].copy_from_slice(&[0x00, 0x3C]);
    layer(6, 256, 1, &block)
}

/// A layer of 512 to 2 in Q4_K.
fn longer_layer() -> Vec<u8> {
    layer(4, 512, 2, &example_block().repeat(4))
}

/// The formats, and the bytes of a block of each.
const BLOCKS: [(u8, usize); 3] = [(4, 144), (5, 176), (6, 210)];

/// A record whose length field says `length`, whatever stands behind it.
fn claims(length: usize, rest: &[u8]) -> Vec<u8> {
    [&count(length), rest].concat()
}

pub fn all() -> Vec<Case> {
    let mut cases = answered();
    cases.extend(near_warm_up());
    cases.extend(lengths());
    cases.extend(kinds());
    cases.extend(layer_heads());
    cases.extend(layer_sizes());
    cases.extend(weight_lengths());
    cases.extend(windows());
    cases
}

/// Files that are read to their end: none, one and several layers, and windows behind each format.
fn answered() -> Vec<Case> {
    let (layer, ones) = (small_layer(), window(&[1.0; 256]));
    let other = longer_layer();
    vec![
        whole(&[], 0, 0),
        whole(&[&example()], 1, 1),
        whole(&[&layer], 0, 0),
        whole(
            &[&layer, &layer, &small_layer_q5k(), &small_layer_q6k()],
            0,
            0,
        ),
        whole(&[&small_layer_q6k(), &ones], 1, 0),
        whole(
            &[&small_layer_q5k(), &ones, &window(&[0.0; 256]), &ones],
            2,
            1,
        ),
        whole(
            &[&layer, &ones, &other, &window(&[1.0; 512]), &layer, &ones],
            3,
            0,
        ),
        whole(&[&other, &window(&[0.0; 512]), &layer, &ones], 1, 1),
    ]
}

/// Windows that only look like warm-up windows, and windows with one warm-up reading.
fn near_warm_up() -> Vec<Case> {
    let (layer, ones) = (small_layer(), window(&[1.0; 256]));
    let bits = [
        0x8000_0000,
        0x0000_0001,
        0x0100_0000,
        0x7F80_0000,
        0xFF80_0000,
        0x7FC0_0000,
        0xFFFF_FFFF,
    ];
    let of_bits = |bits| window(&[f32::from_bits(bits); 256]);
    let whole_of = |bits| whole(&[&layer, &of_bits(bits)], 1, 0);
    let mut cases: Vec<Case> = bits.map(whole_of).into();
    // Six bytes of zero, of which no four are one reading.
    let mut readings = [1.0; 256];
    readings[8..10].copy_from_slice(&[0x0000_0001, 0x0100_0000].map(f32::from_bits));
    cases.push(whole(&[&layer, &window(&readings)], 1, 0));
    cases.extend([0, 1, 100, 254, 255].map(|place| {
        let mut readings = [f32::NAN; 256];
        readings[place] = 0.0;
        whole(&[&layer, &window(&readings), &ones], 1, 1)
    }));
    cases
}

/// A bad or cut length is 11, also where the kind is unknown.
fn lengths() -> Vec<Case> {
    let mut cases = Vec::new();
    for bytes in 1..4 {
        cases.extend(both(11, &vec![2; bytes]));
        cases.extend(both(11, &vec![0; bytes]));
    }
    let kind_3 = [3, 0, 0, 0, 0, 0, 0, 0];
    for length in [0, 1, 9, 0x0001_0002, 0x8000_0002, 0xFFFF_FFFF] {
        cases.extend(both(11, &claims(length, &kind_3)));
    }
    for length in [2, 8] {
        cases.extend(both(12, &claims(length, &kind_3)));
    }
    for left in 0..2 {
        cases.extend(both(11, &claims(2, &kind_3[..left])));
    }
    let mut longest = vec![0; 32_769];
    longest[0] = 3;
    cases.push(stops(12, &[], &claims(32_768, &longest[..32_768])));
    cases.push(stops(11, &[], &claims(32_768, &longest[..32_767])));
    cases.push(stops(11, &[], &claims(32_769, &longest)));
    // Bytes behind the last record.
    let file = example();
    for bytes in [1, 3, 4, 5, 7] {
        cases.push(stops(11, &file, &vec![0; bytes]));
    }
    cases
}

/// An unknown kind is 12, whatever its payload.
fn kinds() -> Vec<Case> {
    let layer = &small_layer()[6..];
    let mut cases = Vec::new();
    for kind in [0, 3, 16, 17, 0x0100, 0x0101, 0x0102, 0x0201, 0xFFFF] {
        cases.extend(both(12, &record(kind, layer)));
        cases.extend(both(12, &record(kind, &[])));
    }
    cases.push(stops(12, &small_layer(), &record(3, &[0; 1_024])));
    cases.push(stops(12, &example(), &record(0, &[])));
    cases
}

/// A short head is 11, also where its format is unknown; then an unknown format is 12, also where
/// its sizes are out of range, no multiple, or not those of the weights.
fn layer_heads() -> Vec<Case> {
    let mut cases = Vec::new();
    for format in [4, 5, 6, 7] {
        let payload = [&[format], &count(256)[..], &count(1)].concat();
        for bytes in 0..payload.len() {
            cases.extend(both(11, &record(1, &payload[..bytes])));
        }
        let number = if format == 7 { 12 } else { 11 };
        cases.extend(both(number, &record(1, &payload)));
    }
    for format in [0, 1, 2, 3, 7, 8, 0x44, 0xFF] {
        cases.extend(both(12, &layer(format, 256, 1, &example_block())));
        cases.extend(both(12, &layer(format, 0, 1, &example_block())));
        cases.extend(both(12, &layer(format, 256, 17, &[])));
        cases.extend(both(12, &layer(format, 255, 1, &[])));
        cases.extend(both(12, &layer(format, 256, 1, &[])));
    }
    cases
}

/// Sizes out of range are 6, also where in_feat is no multiple of 256; that is then 2, also where
/// the weights are too short or too long.
fn layer_sizes() -> Vec<Case> {
    const IN_FEATS: [usize; 9] = [
        0,
        2_049,
        2_304,
        4_096,
        0x0001_0100,
        0x0100_0100,
        0x8000_0100,
        0xFFFF_FF00,
        0xFFFF_FFFF,
    ];
    const OUT_FEATS: [usize; 7] = [
        0,
        17,
        256,
        0x0001_0001,
        0x0100_0001,
        0x8000_0001,
        0xFFFF_FFFF,
    ];
    let block = example_block();
    let mut cases = Vec::new();
    for (format, _) in BLOCKS {
        for in_feat in IN_FEATS {
            cases.extend(both(6, &layer(format, in_feat, 1, &block)));
        }
        for out_feat in OUT_FEATS {
            cases.extend(both(6, &layer(format, 256, out_feat, &block)));
            cases.extend(both(6, &layer(format, 255, out_feat, &[])));
        }
        cases.extend(both(6, &layer(format, 0, 0, &[])));
        for in_feat in [1, 2, 32, 128, 255, 257, 384, 1_000, 2_047] {
            cases.extend(both(2, &layer(format, in_feat, 1, &[])));
            cases.extend(both(2, &layer(format, in_feat, 16, &block)));
        }
    }
    cases
}

/// Weights of any other length than the layer's are 11, a block of another format among them.
fn weight_lengths() -> Vec<Case> {
    let mut cases = Vec::new();
    for (format, block) in BLOCKS {
        let others = BLOCKS.map(|(_, bytes)| bytes);
        let others = others.into_iter().filter(|&bytes| bytes != block);
        for bytes in [0, 1, block - 1, block + 1, 2 * block]
            .into_iter()
            .chain(others)
        {
            cases.extend(both(11, &layer(format, 256, 1, &vec![0; bytes])));
        }
        for (in_feat, out_feat) in [(256, 2), (512, 1), (512, 2), (2_048, 16), (256, 16)] {
            cases.extend(both(11, &layer(format, in_feat, out_feat, &vec![0; block])));
        }
        for bytes in [block, 3 * block, 4 * block - 1, 4 * block + 1] {
            cases.extend(both(11, &layer(format, 512, 2, &vec![0; bytes])));
        }
    }
    cases
}

/// A window with no layer, or of another size than the latest layer's, is 11, also where it holds a
/// +0.0.
fn windows() -> Vec<Case> {
    let layer = small_layer();
    let ones = window(&[1.0; 256]);
    let zeros = window(&[0.0; 256]);
    let mut cases = vec![
        stops(11, &[], &ones),
        stops(11, &[], &zeros),
        stops(11, &[], &record(2, &[])),
        stops(11, &[], &record(2, &[0; 4])),
    ];
    for before in [layer.clone(), [&layer[..], &ones, &zeros].concat()] {
        for bytes in [0, 1, 4, 256, 512, 1_020, 1_023, 1_025, 1_028] {
            cases.push(stops(11, &before, &record(2, &vec![0x3F; bytes])));
        }
        for bytes in [4, 1_020, 1_028] {
            cases.push(stops(11, &before, &record(2, &vec![0; bytes])));
        }
    }
    let other = longer_layer();
    cases.push(stops(11, &other, &ones));
    cases.push(stops(11, &[&layer[..], &ones, &other].concat(), &ones));
    cases.push(stops(
        11,
        &[&other[..], &layer].concat(),
        &window(&[1.0; 512]),
    ));
    cases
}
