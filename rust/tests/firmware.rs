//! What docs/FIRMWARE.md tells: short weights by their counts, by those of a layer of 4,096 to 16 in
//! Q4_K; lost scales by theirs; that the wrong order of Q4_0 is not refused; and what scale to give to
//! IQ4_NL.
use jambharrow::{
    canonical_dot_q4k_fused, dequantize_iq4_nl, dequantize_q4_0, dequantize_q4_0_ggml,
    dequantize_q8_0, linear_q4_0_cpu, linear_q4_0_ggml_cpu, linear_q4_k_fused, q4_0_from_ggml,
    quantize_block_q8, quantize_iq4_nl, quantize_q4_0, quantize_q4_0_ggml, quantize_q8_0, Blocks,
    Layer, Lost, Refusal,
};

const LAYER: Layer = Layer {
    format: Layer::Q4_K,
    in_feat: 4_096,
    out_feat: 16,
};

/// The bytes of the weights that are given, and the blocks that are found in them: those of 2,048 to
/// 16, its own that were cut, those of 4,096 to 12, those of 2,048 to 16 in Q5_K and in Q6_K, and
/// nothing.
const GIVEN: [(usize, u64); 6] = [
    (18_432, 128),
    (20_000, 138),
    (27_648, 192),
    (22_528, 156),
    (26_880, 186),
    (0, 0),
];

fn short(found: u64, needed: u64) -> Refusal {
    Refusal::WeightsShort(Some(Blocks { found, needed }))
}

#[test]
fn a_layer_and_a_run_say_the_same_counts() {
    let (x, mut y) = ([1.0; 4_096], [0.0; 16]);
    let (mut slots, mut marks) = ([0.0; 16], [0; 16]);
    for (bytes, found) in GIVEN {
        let w = vec![0; bytes];
        let layer = linear_q4_k_fused(&x, &w, &mut y, 1, LAYER.in_feat, LAYER.out_feat);
        assert_eq!(layer, Err(short(found, 256)));
        let run = LAYER.run(&w, &x, 1, &mut slots, &mut marks);
        assert_eq!(run, Err(short(found, 256)));
    }
    let own = vec![0; 36_864];
    let layer = linear_q4_k_fused(&x, &own, &mut y, 1, LAYER.in_feat, LAYER.out_feat);
    assert_eq!(layer, Ok(()));
}

#[test]
fn a_row_says_its_own_counts_and_a_torn_block_first() {
    let x = [1.0; 4_096];
    let row = |bytes| canonical_dot_q4k_fused(&x, &vec![0; bytes], 4_096);
    assert_eq!(row(8 * 144), Err(short(8, 16)));
    assert_eq!(row(8 * 144 + 1), Err(Refusal::NotWholeBlocks));
    assert_eq!(row(16 * 144), Ok(0.0));
}

#[test]
fn a_refusal_prints_its_number_and_words_that_are_true_of_the_call() {
    let told = |said: Result<(), Refusal>| said.expect_err("it refuses").to_string();
    let too_many = quantize_block_q8(&[0.0; 257]).map(|_| ());
    let readings = "refused 4: not as many readings as the call takes";
    assert_eq!(told(too_many), readings);
    let layer = |readings, outputs| {
        let (x, mut y) = (vec![0.0; readings], vec![0.0; outputs]);
        told(linear_q4_0_cpu(
            &x,
            &[0; 18],
            &mut y,
            &mut [0.0; 32],
            1,
            32,
            1,
        ))
    };
    assert_eq!([layer(31, 1), layer(33, 1)], [readings; 2]);
    let room = "refused 5: output, scratch, slots or marks of a wrong length";
    assert_eq!([layer(32, 0), layer(32, 2)], [room; 2]);
}

/// What each quantizer lost of a block, and what its bytes decode to.
fn packed(readings: &[f32; 32]) -> [(Lost, [f32; 32]); 2] {
    let (mut q4_0, mut q8_0) = ([0; 18], [0; 34]);
    let (mut of_q4_0, mut of_q8_0) = ([7.0; 32], [7.0; 32]);
    let lost = [
        quantize_q4_0(readings, &mut q4_0).expect("room for a block"),
        quantize_q8_0(readings, &mut q8_0).expect("room for a block"),
    ];
    dequantize_q4_0(&q4_0, &mut of_q4_0).expect("a whole block");
    dequantize_q8_0(&q8_0, &mut of_q8_0).expect("a whole block");
    [(lost[0], of_q4_0), (lost[1], of_q8_0)]
}

/// A block that goes up and down by a swing.
fn swinging(swing: f32) -> [f32; 32] {
    std::array::from_fn(|place| [swing, -swing][place % 2])
}

const FLUSHED: Lost = Lost {
    flushed: 1,
    infinite: 0,
};
const SENT_TO_INFINITY: Lost = Lost {
    flushed: 0,
    infinite: 1,
};

#[test]
fn tiny_swings_decode_to_zeros_and_are_kept_in_a_finer_unit() {
    let night = swinging(0.0004);
    assert_eq!(packed(&night), [(FLUSHED, [0.0; 32]); 2]);
    for (lost, decoded) in packed(&night.map(|reading| reading * 1_024.0)) {
        assert_eq!(lost, Lost::default());
        for (reading, decoded) in night.iter().zip(decoded) {
            // On one side a nibble goes no further than 7 eighths, and the scale's digits are cut.
            assert!((reading - decoded / 1_024.0).abs() < 0.0004 / 7.0);
        }
    }
    let [of_q4_0, of_q8_0] = packed(&swinging(0.004));
    assert_eq!(of_q4_0.0, Lost::default());
    assert_eq!(of_q8_0, (FLUSHED, [0.0; 32]));
}

#[test]
fn huge_readings_decode_to_infinities_and_nan() {
    let mut readings = swinging(8_323_072.0);
    readings[5] = 0.0;
    for (lost, decoded) in packed(&readings) {
        assert_eq!(lost, SENT_TO_INFINITY);
        for (place, value) in decoded.into_iter().enumerate() {
            assert_eq!(value.is_nan(), place == 5);
            assert!(value.is_nan() || value.is_infinite());
        }
    }
}

#[test]
fn a_swing_on_a_mean_goes_flat_by_rounding_and_no_count_tells() {
    for (lost, decoded) in packed(&swinging(0.004).map(|reading| 3.0 + reading)) {
        assert_eq!(lost, Lost::default());
        assert_eq!(decoded, [decoded[0]; 32]);
    }
}

#[test]
fn the_wrong_order_is_not_refused_and_has_the_values_at_other_places() {
    let readings: [f32; 32] = std::array::from_fn(|place| (place * place % 17) as f32 - 8.0);
    let (mut block, mut converted) = ([0; 18], [0; 18]);
    let packed = quantize_q4_0_ggml(&readings, &mut block);
    assert_eq!(packed, Ok(Lost::default()));
    let (mut right, mut wrong) = ([7.0; 32], [7.0; 32]);
    assert_eq!(dequantize_q4_0_ggml(&block, &mut right), Ok(()));
    assert_eq!(dequantize_q4_0(&block, &mut wrong), Ok(()));
    assert_ne!(right, wrong);
    let [mut one, mut other] = [right, wrong];
    one.sort_by(f32::total_cmp);
    other.sort_by(f32::total_cmp);
    assert_eq!(one, other);

    // A layer of either order, once the block is in it, has the same output.
    assert_eq!(q4_0_from_ggml(&block, &mut converted), Ok(()));
    let (mut y, mut of_pairs, mut scratch) = ([7.0], [7.0], [7.0; 32]);
    let layer = linear_q4_0_ggml_cpu(&readings, &block, &mut y, &mut scratch, 1, 32, 1);
    assert_eq!(layer, Ok(()));
    let layer = linear_q4_0_cpu(&readings, &converted, &mut of_pairs, &mut scratch, 1, 32, 1);
    assert_eq!(layer, Ok(()));
    assert_eq!(y, of_pairs);
    assert_eq!(scratch, right);
}

/// What readings become by a scale of IQ4_NL.
fn by_scale(scale: u16, readings: &[f32; 32]) -> [f32; 32] {
    let (mut bytes, mut decoded) = ([0; 18], [7.0; 32]);
    assert_eq!(quantize_iq4_nl(readings, scale, &mut bytes), Ok(()));
    assert_eq!(dequantize_iq4_nl(&bytes, &mut decoded), Ok(()));
    decoded
}

#[test]
fn a_scale_of_iq4_nl_reaches_from_minus_127_to_113_times_itself() {
    // 2^-6, and readings within its reach, over it on either side, and 0.
    let step = 1.0 / 64.0;
    let mut readings = [0.0; 32];
    readings[..5].copy_from_slice(&[-1.98, 1.77, -10.0, 10.0, 0.2]);
    let decoded = by_scale(0x2400, &readings);
    let wanted = [-127.0, 113.0, -127.0, 113.0, 13.0, 1.0].map(|value| value * step);
    assert_eq!(decoded[..6], wanted);
    // A scale that is too large leaves all of them at its own sign and size.
    assert_eq!(by_scale(0x7BFF, &readings), [65_504.0; 32]);
    // A zero, an infinity and a NaN decode to themselves.
    assert_eq!(by_scale(0x8000, &readings), [-0.0; 32]);
    assert_eq!(by_scale(0x7C00, &readings), [f32::INFINITY; 32]);
    assert!(by_scale(0x7E00, &readings)
        .iter()
        .all(|value| value.is_nan()));
}
