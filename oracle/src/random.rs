//! Numbers that look random and are the same in every run: SplitMix64, from a seed.
use std::sync::atomic::{AtomicU64, Ordering};

/// What every seed is mixed with: nothing, but in a campaign, whose rounds draw other numbers.
static SALT: AtomicU64 = AtomicU64::new(0);

/// Has every seed from here on mixed with `salt`.
pub fn set_salt(salt: u64) {
    SALT.store(salt, Ordering::Relaxed);
}

pub struct Random(u64);

impl Random {
    pub fn new(seed: u64) -> Random {
        Random(seed ^ SALT.load(Ordering::Relaxed))
    }

    pub fn u64(&mut self) -> u64 {
        self.0 = self.0.wrapping_add(0x9E37_79B9_7F4A_7C15);
        let mut mixed = self.0;
        mixed = (mixed ^ (mixed >> 30)).wrapping_mul(0xBF58_476D_1CE4_E5B9);
        mixed = (mixed ^ (mixed >> 27)).wrapping_mul(0x94D0_49BB_1331_11EB);
        mixed ^ (mixed >> 31)
    }

    pub fn u32(&mut self) -> u32 {
        (self.u64() >> 32) as u32
    }

    pub fn u16(&mut self) -> u16 {
        (self.u64() >> 48) as u16
    }

    /// A number below `end`, which is small beside 2^32.
    pub fn below(&mut self, end: usize) -> usize {
        self.u32() as usize % end
    }

    pub fn bytes(&mut self, len: usize) -> Vec<u8> {
        let mut bytes = Vec::with_capacity(len + 8);
        while bytes.len() < len {
            bytes.extend(self.u64().to_le_bytes());
        }
        bytes.truncate(len);
        bytes
    }
}
