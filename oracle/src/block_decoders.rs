//! The block decoders.
use crate::calls::Call;
use crate::compare::Comparison;
use crate::packed_blocks::BlockCall;
use crate::{iq4_nl, q4_0_ggml, q5_k};
use jambharrow::Refusal;
use oracle::error::Result as RustResult;
use oracle::inputs::{self, Layout};
use oracle::ops::quant;

pub const DEQUANTIZE_Q4_0: Call = Call {
    name: "dequantize_q4_0",
    compare: |comparison| compare(&Q4_0, comparison),
    sample: |records| Q4_0.sample(records),
};

pub const DEQUANTIZE_Q5_0: Call = Call {
    name: "dequantize_q5_0",
    compare: |comparison| compare(&Q5_0, comparison),
    sample: |records| Q5_0.sample(records),
};

pub const DEQUANTIZE_Q8_0: Call = Call {
    name: "dequantize_q8_0",
    compare: |comparison| compare(&Q8_0, comparison),
    sample: |records| Q8_0.sample(records),
};

pub const DEQUANTIZE_Q4_K: Call = Call {
    name: "dequantize_q4_k",
    compare: |comparison| compare(&Q4_K, comparison),
    sample: |records| Q4_K.sample(records),
};

pub const DEQUANTIZE_Q6_K: Call = Call {
    name: "dequantize_q6_k",
    compare: |comparison| compare(&Q6_K, comparison),
    sample: |records| Q6_K.sample(records),
};

pub const DEQUANTIZE_Q5_K: Call = Call {
    name: "dequantize_q5_k",
    compare: |comparison| compare(&Q5_K, comparison),
    sample: |records| Q5_K.sample(records),
};

pub const DEQUANTIZE_Q4_0_GGML: Call = Call {
    name: "dequantize_q4_0_ggml",
    compare: |comparison| compare(&Q4_0_GGML, comparison),
    sample: |records| Q4_0_GGML.sample(records),
};

pub const DEQUANTIZE_IQ4_NL: Call = Call {
    name: "dequantize_iq4_nl",
    compare: |comparison| {
        let case = |bytes: &[u8], room| IQ4_NL.case(bytes, room);
        IQ4_NL.compare(comparison, RUNS_BY_REFERENCE, case);
    },
    sample: |records| IQ4_NL.sample(records),
};

const Q4_0: BlockCall<f32> = decoder(
    inputs::Q4_0,
    quant::dequantize_q4_0,
    jambharrow::dequantize_q4_0,
);

const Q5_0: BlockCall<f32> = decoder(
    inputs::Q5_0,
    quant::dequantize_q5_0,
    jambharrow::dequantize_q5_0,
);

const Q8_0: BlockCall<f32> = decoder(
    inputs::Q8_0,
    quant::dequantize_q8_0,
    jambharrow::dequantize_q8_0,
);

const Q4_K: BlockCall<f32> = decoder(
    inputs::Q4_K,
    quant::dequantize_q4_k,
    jambharrow::dequantize_q4_k,
);

const Q6_K: BlockCall<f32> = decoder(
    inputs::Q6_K,
    quant::dequantize_q6_k,
    jambharrow::dequantize_q6_k,
);

const Q5_K: BlockCall<f32> = decoder(inputs::Q5_K, q5_k::dequantize, jambharrow::dequantize_q5_k);

const Q4_0_GGML: BlockCall<f32> = decoder(
    inputs::Q4_0,
    q4_0_ggml::dequantize,
    jambharrow::dequantize_q4_0_ggml,
);

const IQ4_NL: BlockCall<f32> = decoder(
    inputs::IQ4_NL,
    iq4_nl::dequantize,
    jambharrow::dequantize_iq4_nl,
);

/// A decoder on both sides: it writes a place for each value.
const fn decoder(
    layout: Layout,
    other: fn(&[u8]) -> RustResult<Vec<f32>>,
    ours: fn(&[u8], &mut [f32]) -> Result<(), Refusal>,
) -> BlockCall<f32> {
    BlockCall {
        places: layout.values,
        layout,
        other,
        ours,
    }
}

/// How many runs of blocks are compared.
const RUNS: u64 = 1 << 14;
/// The same of IQ4_NL, of which nothing but the reference says what its blocks mean.
const RUNS_BY_REFERENCE: u64 = 1 << 18;

fn compare(decoder: &BlockCall<f32>, comparison: &mut Comparison) {
    decoder.compare(comparison, RUNS, |bytes, room| decoder.case(bytes, room));
}
