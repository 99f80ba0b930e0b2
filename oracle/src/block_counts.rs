//! How short weights are, by document 02: how many whole blocks there are, and how many are needed.
use jambharrow::{Blocks, Refusal};
use oracle::inputs::Layout;

/// What a call says of so many bytes of weights where it needs more blocks than they have.
pub fn short(layout: &Layout, bytes: usize, needed: usize) -> Refusal {
    Refusal::WeightsShort(Some(Blocks {
        found: (bytes / layout.bytes) as u64,
        needed: needed as u64,
    }))
}

/// The blocks that the first n places of a row need.
pub fn of_row(layout: &Layout, n: usize) -> usize {
    n.div_ceil(layout.values)
}

/// The blocks that the rows of a layer need.
pub fn of_layer(layout: &Layout, in_feat: usize, out_feat: usize) -> usize {
    out_feat * (in_feat / layout.values)
}

#[cfg(test)]
mod tests {
    use super::*;
    use oracle::inputs::{Q4_K, Q5_K, Q6_K};

    #[test]
    fn a_window_of_4_096_and_weights_packed_for_2_048() {
        let said = |found, needed| Refusal::WeightsShort(Some(Blocks { found, needed }));
        for (layout, block) in [(Q4_K, 144), (Q5_K, 176), (Q6_K, 210)] {
            let row = of_row(&layout, 4_096);
            assert_eq!(short(&layout, 8 * block, row), said(8, 16));
            let layer = of_layer(&layout, 4_096, 16);
            assert_eq!(short(&layout, 128 * block, layer), said(128, 256));
            assert_eq!(short(&layout, 128 * block - 1, layer), said(127, 256));
        }
    }

    #[test]
    fn a_row_needs_the_block_that_it_ends_in() {
        let needed = [0, 1, 256, 257, 131_072].map(|n| of_row(&Q4_K, n));
        assert_eq!(needed, [0, 1, 1, 2, 512]);
    }
}
