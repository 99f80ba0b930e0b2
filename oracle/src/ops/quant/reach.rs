//! The private functions of quant.rs, for those outside it.

#[inline]
pub fn f16_to_f32(half: u16) -> f32 {
    super::f16_to_f32(half)
}

#[inline]
pub fn f32_to_f16(f: f32) -> u16 {
    super::f32_to_f16(f)
}
