//! The stepped layer: a layer worked one piece of one row at a time, in any order and across any
//! number of wake slots.
use crate::refusal::{counted, done, Refusal};
use crate::sys::{self, Size};
use crate::{MOST_IN, MOST_OUT};

/// A layer that is worked by pieces. A piece is one chunk, of at most 8,192 places, of one row; it
/// has a slot, where its sum waits, and a mark, which is nonzero once it is done. Slots and marks go
/// row by row, and are all that the work leaves behind: whoever keeps them can stop after any call
/// and go on later. A closed row has the bits of [`canonical_dot_q4k_fused`],
/// [`canonical_dot_q5k_fused`] or [`q6k_fused_f32_dot`], whatever the order of its pieces.
///
/// A call refuses, in this order, as [`Refusal::Unknown`] an unknown format, as
/// [`Refusal::TooLarge`] an `in_feat` over [`MOST_IN`](crate::MOST_IN) or an `out_feat` over
/// [`MOST_OUT`](crate::MOST_OUT), and as [`Refusal::NotAMultiple`] an `in_feat` that is not a
/// multiple of 256; then what is too short of the memory that it uses, as
/// [`Refusal::WeightsShort`], [`Refusal::ReadingsShort`] or [`Refusal::RoomShort`]; then what the
/// words beside it say. Weights, readings, slots, marks and outputs are needed for the whole layer;
/// surplus ones are kept, and so is everything where a call refuses.
///
/// ```
/// use jambharrow::{Layer, Progress};
///
/// const LAYER: Layer = Layer { format: Layer::Q4_K, in_feat: 16_384, out_feat: 1 };
/// const PIECES: usize = LAYER.pieces();
///
/// let (w, x) = (vec![0; LAYER.weight_bytes()?], [1.0; LAYER.in_feat]);
/// let (mut slots, mut marks, mut y) = ([0.0; PIECES], [0; PIECES], [7.0; LAYER.out_feat]);
/// LAYER.open(&mut slots, &mut marks)?;
/// let progress = LAYER.run(&w, &x, 1, &mut slots, &mut marks)?;
/// assert_eq!(progress, Progress { done: 1, left: 1 });
/// LAYER.piece(&w, &x, 0, 1, &mut slots, &mut marks)?;
/// LAYER.close(0, &slots, &marks, &mut y)?;
/// assert_eq!(y, [0.0]);
/// # Ok::<(), jambharrow::Refusal>(())
/// ```
///
/// [`canonical_dot_q4k_fused`]: crate::canonical_dot_q4k_fused
/// [`canonical_dot_q5k_fused`]: crate::canonical_dot_q5k_fused
/// [`q6k_fused_f32_dot`]: crate::q6k_fused_f32_dot
#[derive(Debug, Clone, Copy, PartialEq, Eq, Hash)]
pub struct Layer {
    /// The format of the weights: [`Layer::Q4_K`], [`Layer::Q5_K`] or [`Layer::Q6_K`].
    pub format: u8,
    /// How many readings go in.
    pub in_feat: usize,
    /// How many outputs come out: the rows.
    pub out_feat: usize,
}

/// What [`Layer::run`] did.
#[derive(Debug, Clone, Copy, PartialEq, Eq, Hash)]
pub struct Progress {
    /// How many pieces it did: the smaller of its budget and the pieces that were open.
    pub done: usize,
    /// How many pieces stay open.
    pub left: usize,
}

impl Layer {
    /// The format byte of Q4_K.
    pub const Q4_K: u8 = 4;
    /// The format byte of Q5_K.
    pub const Q5_K: u8 = 5;
    /// The format byte of Q6_K.
    pub const Q6_K: u8 = 6;

    /// The places of a chunk, and so of a piece, at most.
    pub const CHUNK: usize = 8_192;

    /// How many pieces the layer has, and so how many slots and how many marks it needs.
    pub const fn pieces(self) -> usize {
        self.out_feat
            .saturating_mul(self.in_feat.div_ceil(Layer::CHUNK))
    }

    /// How many bytes the weights of the layer have. Where every call refuses the layer for its
    /// format or its sizes, so does this, in the same order.
    ///
    /// ```
    /// use jambharrow::{Layer, Refusal};
    ///
    /// let layer = Layer { format: Layer::Q4_K, in_feat: 2_048, out_feat: 16 };
    /// assert_eq!(layer.weight_bytes(), Ok(18_432));
    /// let unknown = Layer { format: 3, ..layer };
    /// assert_eq!(unknown.weight_bytes(), Err(Refusal::Unknown));
    /// ```
    pub const fn weight_bytes(self) -> Result<usize, Refusal> {
        let block_bytes = match self.format {
            Layer::Q4_K => 144,
            Layer::Q5_K => 176,
            Layer::Q6_K => 210,
            _ => return Err(Refusal::Unknown),
        };
        if self.in_feat > MOST_IN || self.out_feat > MOST_OUT {
            return Err(Refusal::TooLarge);
        }
        if self.in_feat % 256 != 0 {
            return Err(Refusal::NotAMultiple);
        }
        // On a processor of 32 bits the largest layers have more bytes than there are.
        match (self.in_feat / 256 * block_bytes).checked_mul(self.out_feat) {
            Some(bytes) => Ok(bytes),
            None => Err(Refusal::TooLarge),
        }
    }

    /// Begins the work: the mark of every piece becomes 0, and its slot +0.0.
    #[inline]
    pub fn open(self, slots: &mut [f32], marks: &mut [u8]) -> Result<(), Refusal> {
        // SAFETY: each pointer and length is a slice's, and what is written is lent to this call
        // alone.
        done(unsafe {
            sys::jambharrow_open(
                self.format,
                self.in_feat as Size,
                self.out_feat as Size,
                slots.as_mut_ptr(),
                slots.len() as Size,
                marks.as_mut_ptr(),
                marks.len() as Size,
            )
        })
    }

    /// Works one piece: its slot becomes the sum of its chunk of the row, and its mark 1. At the end
    /// it refuses as [`Refusal::Outside`] a row or chunk that the layer does not have, and as
    /// [`Refusal::AlreadyDone`] a piece whose mark is not 0.
    #[inline]
    pub fn piece(
        self,
        w: &[u8],
        x: &[f32],
        row: usize,
        chunk: usize,
        slots: &mut [f32],
        marks: &mut [u8],
    ) -> Result<(), Refusal> {
        // SAFETY: each pointer and length is a slice's, and what is written is lent to this call
        // alone.
        counted(|blocks| unsafe {
            sys::jambharrow_piece(
                self.format,
                self.in_feat as Size,
                self.out_feat as Size,
                w.as_ptr(),
                w.len() as Size,
                x.as_ptr(),
                x.len() as Size,
                row as Size,
                chunk as Size,
                slots.as_mut_ptr(),
                slots.len() as Size,
                marks.as_mut_ptr(),
                marks.len() as Size,
                blocks,
            )
        })
    }

    /// Works the next open pieces in row order, chunks rising, at most `budget`.
    #[inline]
    pub fn run(
        self,
        w: &[u8],
        x: &[f32],
        budget: usize,
        slots: &mut [f32],
        marks: &mut [u8],
    ) -> Result<Progress, Refusal> {
        let (mut worked, mut left) = (0, 0);
        // SAFETY: each pointer and length is a slice's, and what is written, all counts too, is lent
        // to this call alone.
        counted(|blocks| unsafe {
            sys::jambharrow_run(
                self.format,
                self.in_feat as Size,
                self.out_feat as Size,
                w.as_ptr(),
                w.len() as Size,
                x.as_ptr(),
                x.len() as Size,
                budget as Size,
                slots.as_mut_ptr(),
                slots.len() as Size,
                marks.as_mut_ptr(),
                marks.len() as Size,
                &mut worked,
                &mut left,
                blocks,
            )
        })?;
        // Neither is more than the slots that were lent.
        Ok(Progress {
            done: worked as usize,
            left: left as usize,
        })
    }

    /// Writes the output of a row that is done, at its place in `y`: its slots, met in the tree of
    /// [`canonical_combine`](crate::canonical_combine). Slots and marks stay, and a row may be closed
    /// again. At the end it refuses as [`Refusal::Outside`] a row that the layer does not have, and
    /// as [`Refusal::PieceOpen`] a row of which a piece is open.
    #[inline]
    pub fn close(
        self,
        row: usize,
        slots: &[f32],
        marks: &[u8],
        y: &mut [f32],
    ) -> Result<(), Refusal> {
        // SAFETY: each pointer and length is a slice's, and what is written is lent to this call
        // alone.
        done(unsafe {
            sys::jambharrow_close(
                self.format,
                self.in_feat as Size,
                self.out_feat as Size,
                row as Size,
                slots.as_ptr(),
                slots.len() as Size,
                marks.as_ptr(),
                marks.len() as Size,
                y.as_mut_ptr(),
                y.len() as Size,
            )
        })
    }
}

#[cfg(test)]
mod tests {
    use super::*;
    use crate::refusal::short;
    use crate::{canonical_dot_q4k_fused, canonical_dot_q5k_fused, q6k_fused_f32_dot};

    /// Three rows of two chunks, the second of one block.
    const LAYER: Layer = Layer {
        format: Layer::Q4_K,
        in_feat: 8_448,
        out_feat: 3,
    };
    const PIECES: usize = 6;

    /// A row's dot in one go.
    type RowDot = fn(&[f32], &[u8], usize) -> Result<f32, Refusal>;

    /// Weights of no pattern, whose scales d and dmin are small halves.
    fn weights(block: usize, scales: &[usize]) -> Vec<u8> {
        let mut w: Vec<u8> = (0..3 * 33 * block as u32)
            .map(|place| (place.wrapping_mul(0x9E37_79B9) >> 24) as u8)
            .collect();
        for block in w.chunks_exact_mut(block) {
            for &scale in scales {
                block[scale + 1] = 0x20;
            }
        }
        w
    }

    fn readings() -> Vec<f32> {
        (0..8_448u32)
            .map(|place| place.wrapping_mul(0x9E37_79B9) as i32 as f32 / 2e8)
            .collect()
    }

    /// What a logger keeps while it sleeps.
    struct Kept {
        slots: Vec<[u8; 4]>,
        marks: Vec<u8>,
    }

    impl Kept {
        /// What is kept before an open: nothing of use.
        fn new() -> Kept {
            Kept {
                slots: vec![[0xEE; 4]; PIECES],
                marks: vec![0xEE; PIECES],
            }
        }

        /// Wakes up, does a part of the work, and sleeps again.
        fn wake<T>(&mut self, work: impl FnOnce(&mut [f32], &mut [u8]) -> T) -> T {
            let slots = self.slots.iter().map(|&bytes| f32::from_le_bytes(bytes));
            let mut slots: Vec<f32> = slots.collect();
            let did = work(&mut slots, &mut self.marks);
            self.slots = slots.into_iter().map(f32::to_le_bytes).collect();
            did
        }
    }

    #[test]
    fn what_a_layer_needs() {
        assert_eq!(LAYER.pieces(), PIECES);
        let sizes = |format, in_feat, out_feat| {
            let layer = Layer {
                format,
                in_feat,
                out_feat,
            };
            (layer.pieces(), layer.weight_bytes())
        };
        assert_eq!(sizes(Layer::Q4_K, 2_048, 16), (16, Ok(18_432)));
        assert_eq!(sizes(Layer::Q5_K, 2_048, 16), (16, Ok(22_528)));
        assert_eq!(sizes(Layer::Q6_K, 8_448, 3), (6, Ok(20_790)));
        assert_eq!(sizes(Layer::Q6_K, 0, 3), (0, Ok(0)));
        assert_eq!(sizes(3, 0, 3), (0, Err(Refusal::Unknown)));
        assert_eq!(sizes(4, 1, 3), (3, Err(Refusal::NotAMultiple)));
        let huge = sizes(4, usize::MAX, usize::MAX);
        assert_eq!(huge, (usize::MAX, Err(Refusal::TooLarge)));
        assert_eq!(sizes(4, MOST_IN + 1, 1), (17, Err(Refusal::TooLarge)));
        let rows = MOST_OUT + 1;
        assert_eq!(sizes(4, 1, rows), (rows, Err(Refusal::TooLarge)));
        // What it says is what a call needs, and no byte less.
        let (w, x) = (vec![0; 20_790], readings());
        let layer = Layer {
            format: Layer::Q6_K,
            ..LAYER
        };
        let (mut slots, mut marks) = ([0.0; PIECES], [0; PIECES]);
        let all = layer.run(&w, &x, 0, &mut slots, &mut marks);
        assert_eq!(all, Ok(Progress { done: 0, left: 6 }));
        let cut = layer.run(&w[1..], &x, 0, &mut slots, &mut marks);
        assert_eq!(cut, Err(short(98, 99)));
        let cut = layer.run(&w, &x, 0, &mut slots[1..], &mut marks);
        assert_eq!(cut, Err(Refusal::RoomShort));
    }

    #[test]
    fn a_layer_across_wake_slots() {
        let formats: [(u8, usize, RowDot); 2] = [
            (Layer::Q4_K, 144, canonical_dot_q4k_fused),
            (Layer::Q5_K, 176, canonical_dot_q5k_fused),
        ];
        for (format, block, row_dot) in formats {
            let layer = Layer { format, ..LAYER };
            let (w, x) = (weights(block, &[0, 2]), readings());
            let mut kept = Kept::new();
            assert_eq!(kept.wake(|slots, marks| layer.open(slots, marks)), Ok(()));
            for (done, left) in [(2, 4), (2, 2), (2, 0), (0, 0)] {
                let run = kept.wake(|slots, marks| layer.run(&w, &x, 2, slots, marks));
                assert_eq!(run, Ok(Progress { done, left }));
            }
            let mut y = [7.0; 4];
            for row in [2, 0, 1, 0] {
                let close = kept.wake(|slots, marks| layer.close(row, slots, marks, &mut y));
                assert_eq!(close, Ok(()));
                let bytes = 33 * block;
                let one_go = row_dot(&x, &w[row * bytes..][..bytes], 8_448);
                assert_eq!(Ok(y[row].to_bits()), one_go.map(f32::to_bits));
                assert!(y[row].is_normal());
            }
            assert_eq!(y[3], 7.0);
        }
    }

    #[test]
    fn pieces_in_any_order() {
        let layer = Layer {
            format: Layer::Q6_K,
            ..LAYER
        };
        let (w, x) = (weights(210, &[208]), readings());
        let mut kept = Kept::new();
        assert_eq!(kept.wake(|slots, marks| layer.open(slots, marks)), Ok(()));
        let mut y = [7.0; 3];
        for (row, chunk) in [(2, 1), (0, 0), (2, 0)] {
            let close = kept.wake(|slots, marks| layer.close(2, slots, marks, &mut y));
            assert_eq!((close, y), (Err(Refusal::PieceOpen), [7.0; 3]));
            let piece = kept.wake(|slots, marks| layer.piece(&w, &x, row, chunk, slots, marks));
            assert_eq!(piece, Ok(()));
            let again = kept.wake(|slots, marks| layer.piece(&w, &x, row, chunk, slots, marks));
            assert_eq!(again, Err(Refusal::AlreadyDone));
        }
        assert_eq!(kept.marks, [1, 0, 0, 0, 1, 1]);
        assert_eq!([1, 2, 3].map(|open| kept.slots[open]), [[0; 4]; 3]);
        let close = kept.wake(|slots, marks| layer.close(2, slots, marks, &mut y));
        assert_eq!(close, Ok(()));
        let one_go = q6k_fused_f32_dot(&x, &w[2 * 33 * 210..], 8_448);
        assert_eq!(Ok(y[2].to_bits()), one_go.map(f32::to_bits));
        assert!(y[2].is_normal());
        assert_eq!(y[..2], [7.0; 2]);
    }

    #[test]
    fn a_nonzero_mark_means_done() {
        let (w, x) = (weights(144, &[0, 2]), readings());
        let mut slots = [1.0, 2.0, 4.0, 8.0, 16.0, 32.0];
        let mut marks = [255, 2, 1, 0, 0, 128];
        let run = LAYER.run(&w, &x, 0, &mut slots, &mut marks);
        assert_eq!(run, Ok(Progress { done: 0, left: 2 }));
        let mut y = [7.0; 3];
        assert_eq!(LAYER.close(0, &slots, &marks, &mut y), Ok(()));
        assert_eq!(y, [3.0, 7.0, 7.0]);
        let run = LAYER.run(&w, &x, usize::MAX, &mut slots, &mut marks);
        assert_eq!(run, Ok(Progress { done: 2, left: 0 }));
        assert_eq!(marks, [255, 2, 1, 1, 1, 128]);
        assert_eq!([0, 1, 2, 5].map(|kept| slots[kept]), [1.0, 2.0, 4.0, 32.0]);
    }

    #[test]
    fn a_layer_of_no_readings_has_no_pieces() {
        let layer = Layer {
            in_feat: 0,
            ..LAYER
        };
        let mut y = [7.0; 3];
        assert_eq!(layer.open(&mut [], &mut []), Ok(()));
        let run = layer.run(&[], &[], 5, &mut [], &mut []);
        assert_eq!(run, Ok(Progress { done: 0, left: 0 }));
        let piece = layer.piece(&[], &[], 0, 0, &mut [], &mut []);
        assert_eq!(piece, Err(Refusal::Outside));
        assert_eq!(layer.close(1, &[], &[], &mut y), Ok(()));
        assert_eq!(y.map(f32::to_bits), [7f32, 0.0, 7.0].map(f32::to_bits));
    }

    #[test]
    fn refusals_come_in_their_order_and_keep_slots_and_marks() {
        let (w, x) = (weights(144, &[0, 2]), readings());
        let (mut slots, mut marks) = ([7.0; PIECES], [0; PIECES]);
        let mut piece = |format, in_feat, out_feat, w: &[u8], x: &[f32], room, row| {
            let layer = Layer {
                format,
                in_feat,
                out_feat,
            };
            layer.piece(w, x, row, 0, &mut slots[..room], &mut marks)
        };
        let (most, none): (_, &[u8]) = (MOST_IN + 1, &[]);
        assert_eq!(piece(3, most, 3, none, &[], 0, 3), Err(Refusal::Unknown));
        assert_eq!(piece(4, most, 3, none, &[], 0, 3), Err(Refusal::TooLarge));
        let rows = MOST_OUT + 1;
        assert_eq!(piece(4, 1, rows, none, &[], 0, 3), Err(Refusal::TooLarge));
        assert_eq!(piece(4, 1, 3, none, &[], 0, 3), Err(Refusal::NotAMultiple));
        let last = w.len() - 1;
        let cut = piece(4, 8_448, 3, &w[..last], &[], 0, 3);
        assert_eq!(cut, Err(short(98, 99)));
        let cut = piece(4, 8_448, 3, &w, &x[1..], 0, 3);
        assert_eq!(cut, Err(Refusal::ReadingsShort));
        assert_eq!(piece(4, 8_448, 3, &w, &x, 5, 3), Err(Refusal::RoomShort));
        assert_eq!(piece(4, 8_448, 3, &w, &x, 6, 3), Err(Refusal::Outside));
        assert_eq!((slots, marks), ([7.0; PIECES], [0; PIECES]));
        let close = LAYER.close(0, &slots, &marks, &mut [7.0; 2]);
        assert_eq!(close, Err(Refusal::RoomShort));
    }

    #[test]
    fn short_weights_are_counted_in_whole_blocks() {
        let formats = [(Layer::Q4_K, 144), (Layer::Q5_K, 176), (Layer::Q6_K, 210)];
        for (format, block) in formats {
            let layer = Layer {
                format,
                in_feat: 4_096,
                out_feat: 16,
            };
            // Weights of a layer of 2,048 to 16, and the same that were cut inside a block.
            for (bytes, found) in [(128 * block, 128), (128 * block - 1, 127)] {
                let w = vec![0; bytes];
                let piece = layer.piece(&w, &[], 0, 0, &mut [], &mut []);
                assert_eq!(piece, Err(short(found, 256)));
                let run = layer.run(&w, &[], 1, &mut [], &mut []);
                assert_eq!(run, Err(short(found, 256)));
            }
        }
    }

    /// What the C function `run` returns of a layer of one row of one block, whose only piece has
    /// this mark, and what then stands in the places of its four counts and around them.
    fn run(format: u8, bytes: Size, readings: Size, mark: u8) -> (u32, [Size; 4], [Size; 4]) {
        let (w, x) = ([0; 144], [1.0; 256]);
        let (mut slots, mut marks) = ([7.0], [mark]);
        let (mut counts, mut blocks) = ([7; 4], [7; 4]);
        let [_, done, left, _] = &mut counts;
        let two: &mut [Size; 2] = (&mut blocks[1..3]).try_into().expect("two places");
        let (w, x) = (w.as_ptr(), x.as_ptr());
        let (slots, marks) = (slots.as_mut_ptr(), marks.as_mut_ptr());
        // SAFETY: each pointer is to at least as many places as the length behind it says, and what
        // is written is lent to this call alone.
        let number = unsafe {
            sys::jambharrow_run(
                format, 256, 1, w, bytes, x, readings, 1, slots, 1, marks, 1, done, left, two,
            )
        };
        (number, counts, blocks)
    }

    #[test]
    fn run_writes_its_counts_where_they_are_to_be() {
        let none = [7; 4];
        assert_eq!(run(4, 144, 256, 0), (0, [7, 1, 0, 7], none));
        assert_eq!(run(4, 144, 256, 1), (0, [7, 0, 0, 7], none));
        assert_eq!(run(4, 143, 256, 0), (3, none, [7, 0, 1, 7]));
        assert_eq!(run(4, 144, 255, 0), (4, none, none));
        assert_eq!(run(5, 144, 256, 0), (3, none, [7, 0, 1, 7]));
        assert_eq!(run(7, 143, 256, 0), (12, none, none));
    }

    /// The same of the C function `piece`, and a row.
    fn piece(format: u8, bytes: Size, readings: Size, row: Size, mark: u8) -> (u32, [Size; 4]) {
        let (w, x) = ([0; 144], [1.0; 256]);
        let (mut slots, mut marks) = ([7.0], [mark]);
        let mut blocks = [7; 4];
        let two: &mut [Size; 2] = (&mut blocks[1..3]).try_into().expect("two places");
        let (w, x) = (w.as_ptr(), x.as_ptr());
        let (slots, marks) = (slots.as_mut_ptr(), marks.as_mut_ptr());
        // SAFETY: each pointer is to at least as many places as the length behind it says, and what
        // is written is lent to this call alone.
        let number = unsafe {
            sys::jambharrow_piece(
                format, 256, 1, w, bytes, x, readings, row, 0, slots, 1, marks, 1, two,
            )
        };
        (number, blocks)
    }

    #[test]
    fn piece_writes_its_counts_beside_3_alone() {
        let none = [7; 4];
        assert_eq!(piece(4, 144, 256, 0, 0), (0, none));
        assert_eq!(piece(4, 143, 256, 0, 0), (3, [7, 0, 1, 7]));
        assert_eq!(piece(4, 144, 255, 0, 0), (4, none));
        assert_eq!(piece(4, 144, 256, 1, 0), (8, none));
        assert_eq!(piece(4, 144, 256, 0, 1), (9, none));
        assert_eq!(piece(5, 144, 256, 0, 0), (3, [7, 0, 1, 7]));
        assert_eq!(piece(7, 143, 256, 0, 0), (12, none));
    }
}
