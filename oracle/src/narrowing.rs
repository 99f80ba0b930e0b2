//! How a number fared when it was narrowed to a binary16, by document 02 and by values: what went in
//! and what came out are made f64s, which have both exactly, and are compared. The Rust says nothing
//! of it.
use jambharrow::How;

/// How `number` fared if `half` was made of it. Each of the four is asked by itself; there is none
/// where not just one of them holds.
pub fn judged(number: f32, half: u16) -> Option<How> {
    let (before, after) = (f64::from(number), value(half));
    let exact = before == after;
    let cut = before.is_finite() && after != 0.0 && after.abs() < before.abs();
    let flushed = before != 0.0 && after == 0.0;
    let sent_to_infinity = after.is_infinite() && (before.is_finite() || before.is_nan());
    match [exact, cut, flushed, sent_to_infinity] {
        [true, false, false, false] => Some(How::Exact),
        [false, true, false, false] => Some(How::Cut),
        [false, false, true, false] => Some(How::Flushed),
        [false, false, false, true] => Some(How::SentToInfinity),
        _ => None,
    }
}

/// The value of a half, by its fields.
fn value(half: u16) -> f64 {
    let digits = f64::from(half & 0x03FF);
    let magnitude = match (half >> 10) & 0x1F {
        0 => digits * 2f64.powi(-24),
        31 if digits == 0.0 => f64::INFINITY,
        31 => f64::NAN,
        field => (1024.0 + digits) * 2f64.powi(i32::from(field) - 25),
    };
    if half >> 15 == 0 {
        magnitude
    } else {
        -magnitude
    }
}

#[cfg(test)]
mod tests {
    use super::*;
    use oracle::ops::quant::reach;

    /// The least half, the least normal one, and the largest.
    const ENDS: [(u16, f64); 3] = [
        (0x0001, 1.0 / 16_777_216.0),
        (0x0400, 1.0 / 16_384.0),
        (0x7BFF, 65_504.0),
    ];

    #[test]
    fn a_half_has_the_value_of_its_fields() {
        for (half, wanted) in ENDS {
            assert_eq!(value(half), wanted);
            assert_eq!(value(half | 0x8000), -wanted);
        }
        assert_eq!(
            [value(0x7C00), value(0xFC00)],
            [1.0, -1.0].map(|sign| sign / 0.0)
        );
        for half in 0..=u16::MAX {
            let widened = f64::from(reach::f16_to_f32(half));
            assert!(value(half) == widened || value(half).is_nan() && widened.is_nan());
        }
    }

    #[test]
    fn one_number_of_each_way() {
        let largest = 65_504.0;
        assert_eq!(judged(largest, 0x7BFF), Some(How::Exact));
        assert_eq!(judged(-0.0, 0x8000), Some(How::Exact));
        assert_eq!(judged(f32::NEG_INFINITY, 0xFC00), Some(How::Exact));
        assert_eq!(judged(largest + 1.0, 0x7BFF), Some(How::Cut));
        assert_eq!(judged(f32::MIN_POSITIVE, 0x0000), Some(How::Flushed));
        assert_eq!(judged(65_536.0, 0x7C00), Some(How::SentToInfinity));
        assert_eq!(judged(f32::NAN, 0x7C00), Some(How::SentToInfinity));
    }

    #[test]
    fn a_half_that_was_not_made_of_the_number_is_none_of_the_four() {
        assert_eq!(judged(1.0, 0x3C01), None);
        assert_eq!(judged(0.0, 0x0001), None);
        assert_eq!(judged(f32::INFINITY, 0x7BFF), None);
        assert_eq!(judged(f32::NAN, 0x7E00), None);
    }
}
