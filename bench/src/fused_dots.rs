//! The fused dots, over rows of readings and packed weights.
use crate::calls::Call;
use crate::measure::Size;
use crate::q5_k;
use crate::row_dots::{row, ROWS};
use oracle::inputs::{Q4_K, Q5_K, Q6_K};
use oracle::ops::quant;

pub const CANONICAL_DOT_Q4K_FUSED: Call = Call {
    name: "canonical_dot_q4k_fused",
    rows: || {
        let row = |length| {
            row(
                &Q4_K,
                length,
                None,
                jambharrow::canonical_dot_q4k_fused,
                quant::canonical_dot_q4k_fused,
            )
        };
        ROWS.map(row).into()
    },
};

pub const CANONICAL_DOT_Q5K_FUSED: Call = Call {
    name: "canonical_dot_q5k_fused",
    rows: || {
        let row = |length: (Size, usize)| {
            row(
                &Q5_K,
                length,
                (length.0 != Size::Small).then_some(0.85),
                jambharrow::canonical_dot_q5k_fused,
                q5_k::canonical_dot_q5k_fused,
            )
        };
        ROWS.map(row).into()
    },
};

pub const Q6K_FUSED_F32_DOT: Call = Call {
    name: "q6k_fused_f32_dot",
    rows: || {
        let row = |length| {
            row(
                &Q6_K,
                length,
                None,
                jambharrow::q6k_fused_f32_dot,
                quant::q6k_fused_f32_dot,
            )
        };
        ROWS.map(row).into()
    },
};
