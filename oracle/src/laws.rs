//! Document 02's two laws of the fixed-order dot on the compiled code, ours beside ours: x and w
//! exchanged, and every reading negated.
use crate::compare::{Compared, Comparison, Difference};
use crate::held;
use crate::layer_cases;
use crate::layers::Layer;
use crate::row_dots::RowDot;
use jambharrow::{canonical_dot_pub, Refusal};
use oracle::inputs::{row, rows};
use oracle::random::Random;

/// How many dots or layers each law is tried on.
const TRIED: u64 = 1 << 20;

/// How many places most rows have at most; one row in so many is of one to two chunks.
const SHORT: usize = 40;
const LONG_ONE_IN: u64 = 1_024;
const CHUNK: usize = 8_192;

/// How many places most rows of packed blocks have at most.
const SHORT_PACKED: usize = 600;

type Said = Result<f32, Refusal>;

/// Both laws of `canonical_dot_pub`.
pub fn of_dot(comparison: &mut Comparison) {
    comparison.cases("x and w exchanged", TRIED, |number| {
        let (x, w, n) = drawn_rows(number);
        let said = canonical_dot_pub(&x, &w, n);
        held_to(said, canonical_dot_pub(&w, &x, n), exchanged, || {
            format!("n {n}, case {number}")
        })
    });
    comparison.cases("every reading negated", TRIED, |number| {
        let (x, w, n) = drawn_rows(number);
        let said = canonical_dot_pub(&x, &w, n);
        held_to(said, canonical_dot_pub(&negated(&x), &w, n), turned, || {
            format!("n {n}, case {number}")
        })
    });
}

/// The law of negation of a fused dot.
pub fn of_fused_dot(comparison: &mut Comparison, dot: &RowDot) {
    comparison.cases("every reading negated", TRIED, |number| {
        let mut random = Random::new(number);
        let n = places(&mut random, number, SHORT_PACKED);
        let x = row(&mut random, n);
        let w = dot.weights(&mut random, n.div_ceil(dot.layout.values));
        let said = (dot.ours)(&x, &w, n);
        held_to(said, (dot.ours)(&negated(&x), &w, n), turned, || {
            format!("n {n}, case {number}")
        })
    });
}

/// The law of negation of a fused layer, each of its outputs in its place. It is asked nothing that
/// it refuses.
pub fn of_fused_layer(comparison: &mut Comparison, layer: &Layer) {
    comparison.cases("every reading negated", TRIED, |number| {
        let mut random = Random::new(number);
        let asked = layer_cases::of_few_blocks(layer, &mut random);
        let (x, w) = layer.inputs(&mut random, asked);
        let filled = |x: &[f32]| {
            let mut y = held::memory(asked.lengths.places);
            let said = layer.ours(x, &w, &mut y, &mut [], asked.sizes);
            (said.map(|()| 0.0), y)
        };
        let ((said, y), (other, z)) = (filled(&x), filled(&negated(&x)));
        let input = || format!("{asked:?}, case {number}");
        held_to(said, other, turned, input)?;
        y.iter().zip(&z).try_fold(0, |values, (&y, &z)| {
            Ok(values + held_to(Ok(y), Ok(z), turned, input)?)
        })
    });
}

/// Two rows of at least n places, and n.
fn drawn_rows(number: u64) -> (Vec<f32>, Vec<f32>, usize) {
    let mut random = Random::new(number);
    let n = places(&mut random, number, SHORT);
    let (mut x, mut w) = rows(&mut random, n + 2);
    x.truncate(n + random.below(3));
    w.truncate(n + random.below(3));
    (x, w, n)
}

/// How many places a row has: 0 up to `short`, and here and there more than a chunk.
fn places(random: &mut Random, number: u64, short: usize) -> usize {
    if number % LONG_ONE_IN == 0 {
        return CHUNK + random.below(CHUNK);
    }
    random.below(short + 1)
}

fn negated(x: &[f32]) -> Vec<f32> {
    x.iter().map(|reading| -reading).collect()
}

/// The same bits, or both NaN.
fn exchanged(said: f32, other: f32) -> bool {
    held::same(said, other)
}

/// The other compares equal to the first negated, or both are NaN.
fn turned(said: f32, other: f32) -> bool {
    other == -said || said.is_nan() && other.is_nan()
}

/// Holds what the call says of the other rows to what it says: two values are to be as the law has
/// it, and two refusals the same.
pub fn held_to(
    said: Said,
    other: Said,
    law: fn(f32, f32) -> bool,
    input: impl Fn() -> String,
) -> Compared {
    let holds = match (said, other) {
        (Ok(said), Ok(other)) => law(said, other),
        (said, other) => said == other,
    };
    if holds {
        return Ok(1);
    }
    Err(Difference {
        input: input(),
        wanted: format!("by the law of {}", held::shown(said)),
        ours: held::shown(other),
    })
}

#[cfg(test)]
mod tests {
    use super::*;

    #[test]
    fn a_zero_may_keep_its_sign_and_nothing_else_may() {
        assert!(turned(0.0, 0.0) && turned(0.0, -0.0));
        assert!(turned(1.5, -1.5) && turned(f32::NAN, f32::NAN));
        assert!(turned(f32::INFINITY, f32::NEG_INFINITY));
        assert!(!turned(1.5, 1.5) && !turned(f32::NAN, 1.5) && !turned(1.5, f32::NAN));
        assert!(!turned(0.0, f32::from_bits(1)));
    }

    #[test]
    fn an_exchange_keeps_the_sign_of_a_zero() {
        assert!(exchanged(0.0, 0.0) && exchanged(f32::NAN, -f32::NAN));
        assert!(!exchanged(0.0, -0.0));
    }

    #[test]
    fn another_refusal_is_a_difference() {
        let short = Err(Refusal::ReadingsShort);
        let long = Err(Refusal::WeightsShort(None));
        assert!(held_to(short, short, turned, String::new).is_ok());
        assert!(held_to(short, long, turned, String::new).is_err());
        assert!(held_to(Ok(0.0), short, turned, String::new).is_err());
    }

    #[test]
    fn the_dot_of_the_worked_case_keeps_its_zero() {
        let dot = |x: &[f32]| canonical_dot_pub(x, &[1.0, -1.0], 2).map(f32::to_bits);
        assert_eq!(dot(&[1.0, 1.0]), Ok(0));
        assert_eq!(dot(&[-1.0, -1.0]), Ok(0));
    }
}
