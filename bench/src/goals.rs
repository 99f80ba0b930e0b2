//! Goals: what a call reached with the shapes that it has, and is to keep. A goal lies below the
//! call's bar, and missing it changes no status: a busy machine may do that.

/// How much of the Rust's time a call is to take at most, on the inputs that have a bar.
const GOALS: [(&str, f64); 7] = [
    ("dequantize_q8_0", 0.9),
    ("quantize_q4_0", 0.65),
    ("quantize_q8_0", 0.65),
    ("linear_q4_k_integer", 0.7),
    ("linear_q6_k_integer", 0.7),
    ("linear_q4_k_integer_rs", 0.7),
    ("linear_q6_k_integer_rs", 0.7),
];

pub fn goal_of(call: &str) -> Option<f64> {
    let found = GOALS.iter().find(|(name, _)| *name == call);
    found.map(|(_, goal)| *goal)
}
