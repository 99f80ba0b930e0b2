//! Binary16, in which every packed block keeps its scales.
use crate::sys;

/// The binary32 of a binary16's bits, as IEEE 754 has it: the same number, with its sign; a NaN for
/// a NaN.
#[inline]
pub fn f16_to_f32(half: u16) -> f32 {
    sys::jambharrow_f16_to_f32(half)
}

/// How a number fared when it was narrowed to a binary16. The numbers are those of C.
#[derive(Debug, Clone, Copy, PartialEq, Eq, Hash)]
pub enum How {
    /// The half has its value, as zeros and infinities have.
    Exact = 0,
    /// Digits that do not fit are gone.
    Cut = 1,
    /// It was not zero, and the half is.
    Flushed = 2,
    /// The half is an infinity, and it was a NaN or finite.
    SentToInfinity = 3,
}

/// A binary16's bits, and how the number that it was made of fared.
#[derive(Debug, Clone, Copy, PartialEq, Eq, Hash)]
pub struct Narrowed {
    pub bits: u16,
    pub how: How,
}

/// The binary16 that quant.rs makes of `f`, and how `f` fared. Digits that do not fit are cut, a
/// magnitude below 2^-14 becomes a signed zero, and one too large an infinity of that sign; so does
/// a NaN.
///
/// ```
/// use jambharrow::{f32_to_f16, How, Narrowed};
///
/// let narrowed = |bits, how| Narrowed { bits, how };
/// assert_eq!(f32_to_f16(0.5), narrowed(0x3800, How::Exact));
/// assert_eq!(f32_to_f16(0.1), narrowed(0x2E66, How::Cut));
/// assert_eq!(f32_to_f16(-0.00001), narrowed(0x8000, How::Flushed));
/// assert_eq!(f32_to_f16(100_000.0), narrowed(0x7C00, How::SentToInfinity));
/// ```
#[inline]
pub fn f32_to_f16(f: f32) -> Narrowed {
    let mut how = 0;
    // SAFETY: the pointer is to a number that is lent to this call alone.
    let bits = unsafe { sys::jambharrow_f32_to_f16(f.to_bits(), &mut how) };
    let how = match how {
        0 => How::Exact,
        1 => How::Cut,
        2 => How::Flushed,
        // 3: the call is proved to say one of four.
        _ => How::SentToInfinity,
    };
    Narrowed { bits, how }
}

#[cfg(test)]
mod tests {
    use super::*;

    #[test]
    fn widening_is_exact() {
        let bits = |half| f16_to_f32(half).to_bits();
        assert_eq!(bits(0x3C00), 0x3F80_0000);
        assert_eq!(bits(0x0001), 0x3380_0000);
        assert_eq!(bits(0x03FF), 0x387F_C000);
        assert_eq!(bits(0x8000), 0x8000_0000);
        assert_eq!(bits(0xFC00), 0xFF80_0000);
        assert!(f16_to_f32(0x7C01).is_nan());
    }

    /// The half of each pattern, of either sign, and how the number fares.
    fn narrows(patterns: &[u32], half: u16, how: How) {
        for &bits in patterns {
            for sign in [0, 1] {
                let bits = bits | sign << 31;
                let half = half | (sign << 15) as u16;
                let narrowed = f32_to_f16(f32::from_bits(bits));
                assert_eq!(narrowed, Narrowed { bits: half, how }, "{bits:08X}");
            }
        }
    }

    #[test]
    fn a_value_that_a_half_has_is_exact() {
        narrows(&[0x0000_0000], 0x0000, How::Exact);
        narrows(&[0x3880_0000], 0x0400, How::Exact);
        narrows(&[0x3F80_0000], 0x3C00, How::Exact);
        narrows(&[0x477F_E000], 0x7BFF, How::Exact);
        narrows(&[0x7F80_0000], 0x7C00, How::Exact);
    }

    #[test]
    fn digits_behind_the_tenth_are_cut() {
        narrows(&[0x3880_0001, 0x3880_1FFF], 0x0400, How::Cut);
        narrows(&[0x3F80_0001, 0x3F80_1FFF], 0x3C00, How::Cut);
        narrows(&[0x477F_E001, 0x477F_FFFF], 0x7BFF, How::Cut);
    }

    #[test]
    fn below_the_least_normal_half_is_flushed() {
        let tiny = [0x0000_0001, 0x007F_FFFF, 0x3380_0000, 0x387F_FFFF];
        narrows(&tiny, 0x0000, How::Flushed);
    }

    #[test]
    fn what_is_too_large_and_a_nan_are_sent_to_infinity() {
        let large = [0x4780_0000, 0x7F7F_FFFF];
        narrows(&large, 0x7C00, How::SentToInfinity);
        let nan = [0x7F80_0001, 0x7FC0_0000, 0x7FFF_FFFF];
        narrows(&nan, 0x7C00, How::SentToInfinity);
    }
}
