//! The layers.
use crate::calls::Call;
use crate::laws;
use crate::layers::{Kind, Layer};
use crate::{iq4_nl, q4_0_ggml, q5_k, rearranged};
use oracle::inputs;
use oracle::ops::quant;

pub const LINEAR_Q4_K_FUSED: Call = Call {
    name: "linear_q4_k_fused",
    compare: |comparison| {
        Q4_K_FUSED.compare(comparison);
        laws::of_fused_layer(comparison, &Q4_K_FUSED);
    },
    sample: |records| Q4_K_FUSED.sample(records),
};

pub const LINEAR_Q6_K_FUSED: Call = Call {
    name: "linear_q6_k_fused",
    compare: |comparison| {
        Q6_K_FUSED.compare(comparison);
        laws::of_fused_layer(comparison, &Q6_K_FUSED);
    },
    sample: |records| Q6_K_FUSED.sample(records),
};

pub const LINEAR_Q4_K_INTEGER: Call = Call {
    name: "linear_q4_k_integer",
    compare: |comparison| {
        Q4_K_INTEGER.compare(comparison);
        rearranged::of_layer(comparison, &Q4_K_INTEGER);
    },
    sample: |records| Q4_K_INTEGER.sample(records),
};

pub const LINEAR_Q6_K_INTEGER: Call = Call {
    name: "linear_q6_k_integer",
    compare: |comparison| {
        Q6_K_INTEGER.compare(comparison);
        rearranged::of_layer(comparison, &Q6_K_INTEGER);
    },
    sample: |records| Q6_K_INTEGER.sample(records),
};

pub const LINEAR_Q4_K_INTEGER_RS: Call = Call {
    name: "linear_q4_k_integer_rs",
    compare: |comparison| {
        Q4_K_INTEGER_RS.compare(comparison);
        rearranged::of_layer(comparison, &Q4_K_INTEGER_RS);
    },
    sample: |records| Q4_K_INTEGER_RS.sample(records),
};

pub const LINEAR_Q6_K_INTEGER_RS: Call = Call {
    name: "linear_q6_k_integer_rs",
    compare: |comparison| {
        Q6_K_INTEGER_RS.compare(comparison);
        rearranged::of_layer(comparison, &Q6_K_INTEGER_RS);
    },
    sample: |records| Q6_K_INTEGER_RS.sample(records),
};

pub const LINEAR_Q4_K_CPU: Call = Call {
    name: "linear_q4_k_cpu",
    compare: |comparison| Q4_K_CPU.compare(comparison),
    sample: |records| Q4_K_CPU.sample(records),
};

pub const LINEAR_Q6_K_CPU: Call = Call {
    name: "linear_q6_k_cpu",
    compare: |comparison| Q6_K_CPU.compare(comparison),
    sample: |records| Q6_K_CPU.sample(records),
};

pub const LINEAR_Q4_0_CPU: Call = Call {
    name: "linear_q4_0_cpu",
    compare: |comparison| Q4_0_CPU.compare(comparison),
    sample: |records| Q4_0_CPU.sample(records),
};

pub const LINEAR_Q5_K_FUSED: Call = Call {
    name: "linear_q5_k_fused",
    compare: |comparison| {
        Q5_K_FUSED.compare(comparison);
        laws::of_fused_layer(comparison, &Q5_K_FUSED);
    },
    sample: |records| Q5_K_FUSED.sample(records),
};

pub const LINEAR_Q5_K_INTEGER: Call = Call {
    name: "linear_q5_k_integer",
    compare: |comparison| {
        Q5_K_INTEGER.compare(comparison);
        rearranged::of_layer(comparison, &Q5_K_INTEGER);
    },
    sample: |records| Q5_K_INTEGER.sample(records),
};

pub const LINEAR_Q5_K_INTEGER_RS: Call = Call {
    name: "linear_q5_k_integer_rs",
    compare: |comparison| {
        Q5_K_INTEGER_RS.compare(comparison);
        rearranged::of_layer(comparison, &Q5_K_INTEGER_RS);
    },
    sample: |records| Q5_K_INTEGER_RS.sample(records),
};

pub const LINEAR_Q4_0_GGML_CPU: Call = Call {
    name: "linear_q4_0_ggml_cpu",
    compare: |comparison| Q4_0_GGML_CPU.compare(comparison),
    sample: |records| Q4_0_GGML_CPU.sample(records),
};

pub const LINEAR_IQ4_NL_CPU: Call = Call {
    name: "linear_iq4_nl_cpu",
    compare: |comparison| IQ4_NL_CPU.compare(comparison),
    sample: |records| IQ4_NL_CPU.sample(records),
};

const Q4_K_FUSED: Layer = Layer {
    layout: inputs::Q4_K,
    other: quant::linear_q4_k_fused,
    kind: Kind::WholeBlocks {
        ours: jambharrow::linear_q4_k_fused,
        other_looks: false,
    },
};

const Q6_K_FUSED: Layer = Layer {
    layout: inputs::Q6_K,
    other: quant::linear_q6_k_fused,
    kind: Kind::WholeBlocks {
        ours: jambharrow::linear_q6_k_fused,
        other_looks: true,
    },
};

const Q4_K_INTEGER: Layer = Layer {
    layout: inputs::Q4_K,
    other: quant::linear_q4_k_integer,
    kind: Kind::WholeBlocks {
        ours: jambharrow::linear_q4_k_integer,
        other_looks: true,
    },
};

const Q6_K_INTEGER: Layer = Layer {
    layout: inputs::Q6_K,
    other: quant::linear_q6_k_integer,
    kind: Kind::WholeBlocks {
        ours: jambharrow::linear_q6_k_integer,
        other_looks: true,
    },
};

const Q4_K_INTEGER_RS: Layer = Layer {
    layout: inputs::Q4_K,
    other: quant::linear_q4_k_integer_rs,
    kind: Kind::WholeBlocks {
        ours: jambharrow::linear_q4_k_integer_rs,
        other_looks: true,
    },
};

const Q6_K_INTEGER_RS: Layer = Layer {
    layout: inputs::Q6_K,
    other: quant::linear_q6_k_integer_rs,
    kind: Kind::WholeBlocks {
        ours: jambharrow::linear_q6_k_integer_rs,
        other_looks: true,
    },
};

const Q4_K_CPU: Layer = Layer {
    layout: inputs::Q4_K,
    other: quant::linear_q4_k_cpu,
    kind: Kind::Cpu {
        ours: jambharrow::linear_q4_k_cpu,
        decode: quant::dequantize_q4_k,
    },
};

const Q6_K_CPU: Layer = Layer {
    layout: inputs::Q6_K,
    other: quant::linear_q6_k_cpu,
    kind: Kind::Cpu {
        ours: jambharrow::linear_q6_k_cpu,
        decode: quant::dequantize_q6_k,
    },
};

const Q4_0_CPU: Layer = Layer {
    layout: inputs::Q4_0,
    other: quant::linear_q4_0_cpu,
    kind: Kind::Cpu {
        ours: jambharrow::linear_q4_0_cpu,
        decode: quant::dequantize_q4_0,
    },
};

const Q5_K_FUSED: Layer = Layer {
    layout: inputs::Q5_K,
    other: q5_k::linear_fused,
    kind: Kind::WholeBlocks {
        ours: jambharrow::linear_q5_k_fused,
        other_looks: true,
    },
};

const Q5_K_INTEGER: Layer = Layer {
    layout: inputs::Q5_K,
    other: q5_k::linear_integer,
    kind: Kind::WholeBlocks {
        ours: jambharrow::linear_q5_k_integer,
        other_looks: true,
    },
};

const Q5_K_INTEGER_RS: Layer = Layer {
    layout: inputs::Q5_K,
    other: q5_k::linear_integer_rs,
    kind: Kind::WholeBlocks {
        ours: jambharrow::linear_q5_k_integer_rs,
        other_looks: true,
    },
};

const Q4_0_GGML_CPU: Layer = Layer {
    layout: inputs::Q4_0,
    other: q4_0_ggml::linear_cpu,
    kind: Kind::Cpu {
        ours: jambharrow::linear_q4_0_ggml_cpu,
        decode: q4_0_ggml::dequantize,
    },
};

const IQ4_NL_CPU: Layer = Layer {
    layout: inputs::IQ4_NL,
    other: iq4_nl::linear_cpu,
    kind: Kind::Cpu {
        ours: jambharrow::linear_iq4_nl_cpu,
        decode: iq4_nl::dequantize,
    },
};
