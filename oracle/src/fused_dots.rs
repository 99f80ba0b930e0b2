//! The fused dots.
use crate::calls::Call;
use crate::laws;
use crate::q5_k;
use crate::row_dots::RowDot;
use oracle::inputs;
use oracle::ops::quant;

pub const CANONICAL_DOT_Q4K_FUSED: Call = Call {
    name: "canonical_dot_q4k_fused",
    compare: |comparison| {
        Q4_K.compare(comparison);
        laws::of_fused_dot(comparison, &Q4_K);
    },
    sample: |records| Q4_K.sample(records),
};

pub const Q6K_FUSED_F32_DOT: Call = Call {
    name: "q6k_fused_f32_dot",
    compare: |comparison| {
        Q6_K.compare(comparison);
        laws::of_fused_dot(comparison, &Q6_K);
    },
    sample: |records| Q6_K.sample(records),
};

pub const CANONICAL_DOT_Q5K_FUSED: Call = Call {
    name: "canonical_dot_q5k_fused",
    compare: |comparison| {
        Q5_K.compare(comparison);
        laws::of_fused_dot(comparison, &Q5_K);
    },
    sample: |records| Q5_K.sample(records),
};

const Q4_K: RowDot = RowDot {
    layout: inputs::Q4_K,
    other: quant::canonical_dot_q4k_fused,
    ours: jambharrow::canonical_dot_q4k_fused,
    adds_up_short_rows: true,
};

const Q6_K: RowDot = RowDot {
    layout: inputs::Q6_K,
    other: quant::q6k_fused_f32_dot,
    ours: jambharrow::q6k_fused_f32_dot,
    adds_up_short_rows: false,
};

const Q5_K: RowDot = RowDot {
    layout: inputs::Q5_K,
    other: q5_k::fused_row_dot,
    ours: jambharrow::canonical_dot_q5k_fused,
    adds_up_short_rows: false,
};
