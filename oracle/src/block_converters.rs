//! The converters between the two orders of Q4_0. The Rust has none: they are held to the rule of the
//! reference (`q4_0_ggml`), to what they undo, and by what their blocks decode to.
use crate::calls::Call;
use crate::compare::{Compared, Comparison};
use crate::held;
use crate::packed_blocks::BlockCall;
use crate::q4_0_ggml;
use jambharrow::Refusal;
use oracle::error::Result as RustResult;
use oracle::inputs::Q4_0;
use oracle::ops::quant;

pub const Q4_0_TO_GGML: Call = Call {
    name: "q4_0_to_ggml",
    compare: |comparison| TO_GGML.compare(comparison),
    sample: |records| TO_GGML.call.sample(records),
};

pub const Q4_0_FROM_GGML: Call = Call {
    name: "q4_0_from_ggml",
    compare: |comparison| FROM_GGML.compare(comparison),
    sample: |records| FROM_GGML.call.sample(records),
};

const TO_GGML: Converter = Converter {
    call: BlockCall {
        layout: Q4_0,
        places: Q4_0.bytes,
        other: q4_0_ggml::of_paired,
        ours: jambharrow::q4_0_to_ggml,
    },
    back: jambharrow::q4_0_from_ggml,
    decode: quant::dequantize_q4_0,
    decode_converted: jambharrow::dequantize_q4_0_ggml,
};

const FROM_GGML: Converter = Converter {
    call: BlockCall {
        layout: Q4_0,
        places: Q4_0.bytes,
        other: q4_0_ggml::to_paired,
        ours: jambharrow::q4_0_from_ggml,
    },
    back: jambharrow::q4_0_to_ggml,
    decode: q4_0_ggml::dequantize,
    decode_converted: jambharrow::dequantize_q4_0,
};

/// How many runs of blocks are compared: with them more than ten million blocks are.
const RUNS: u64 = 1 << 18;

struct Converter {
    call: BlockCall<u8>,
    /// Ours, the other way.
    back: fn(&[u8], &mut [u8]) -> Result<(), Refusal>,
    /// The other side's decoder of what is converted, and ours of what comes of it.
    decode: fn(&[u8]) -> RustResult<Vec<f32>>,
    decode_converted: fn(&[u8], &mut [f32]) -> Result<(), Refusal>,
}

impl Converter {
    fn compare(&self, comparison: &mut Comparison) {
        self.call.compare(comparison, RUNS, |bytes, room| {
            let places = self.call.case(bytes, room)?;
            if self.call.refusal(bytes.len(), room).is_none() {
                self.there_and_back(bytes)?;
            }
            Ok(places)
        });
    }

    /// Holds what ours makes of whole blocks to document 02: the way back restores the bytes, and the
    /// decoded values are the same list.
    fn there_and_back(&self, bytes: &[u8]) -> Compared {
        let input = |part: &str| format!("{part} of {}", self.call.shown(bytes, bytes.len()));
        let (mut there, mut back) = (vec![0; bytes.len()], vec![0; bytes.len()]);
        let wanted = (self.decode)(bytes).expect("whole blocks");
        let mut values = vec![0.0; wanted.len()];
        let said = (self.call.ours)(bytes, &mut there)
            .and_then(|()| (self.back)(&there, &mut back))
            .and_then(|()| (self.decode_converted)(&there, &mut values));
        held::outcome(None, said, || input("what is said"))?;
        held::places(0, bytes, &[], &back, || input("the way back"))?;
        held::places(0, &wanted, &[], &values, || input("the values"))
    }
}

#[cfg(test)]
mod tests {
    use super::*;

    /// Whether the way back, or the values, of a block of zeros but for its first byte of nibbles
    /// differ.
    fn differs(converter: &Converter) -> bool {
        let mut block = [0; 18];
        block[2] = 0xF0;
        converter.there_and_back(&block).is_err()
    }

    #[test]
    fn a_wrong_way_back_and_wrong_values_are_seen() {
        assert!(!differs(&TO_GGML) && !differs(&FROM_GGML));
        let there_again = Converter {
            back: jambharrow::q4_0_to_ggml,
            ..TO_GGML
        };
        let same_order = Converter {
            decode_converted: jambharrow::dequantize_q4_0,
            ..TO_GGML
        };
        assert!(differs(&there_again) && differs(&same_order));
    }
}
