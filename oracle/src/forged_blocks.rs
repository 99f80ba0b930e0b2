//! Which activation blocks a block dot says no to, by documents 01 and 02, and blocks that are forged
//! so that it has to. The Rust answers all of them.
use crate::block_counts::short;
use jambharrow::{Q8Block, Refusal};
use oracle::inputs::Layout;
use oracle::random::Random;

/// The places of a block, and those that a sum has.
const PLACES: usize = 256;
const SUMMED: usize = 32;

/// Whether a format has minimums, whose dot alone uses the sums.
#[derive(Debug, Clone, Copy, PartialEq)]
pub enum Kind {
    WithMinimums,
    WithoutMinimums,
}

/// What the documents say of so many bytes of weights, this block and this n. Document 01: 3 where
/// the bytes are no block; 7 where sums that are used are not the sums of their 32s. Document 02
/// between the two: 15 where n, above 256 taken as 256, is not the block's count, where a quant past
/// the count is not 0, and where the count is above 256.
pub fn judged(
    kind: Kind,
    layout: &Layout,
    bytes: usize,
    block: &Q8Block,
    n: usize,
) -> Option<Refusal> {
    let too_short = bytes < layout.bytes;
    let held = if n > PLACES { PLACES } else { n };
    let other_count = held != block.count() || block.count() > PLACES;
    let mut past = block.qs().iter().skip(block.count());
    let wrong_sums = kind == Kind::WithMinimums && *block.bsums() != sums_of(block.qs());
    if too_short {
        Some(short(layout, bytes, 1))
    } else if other_count || past.any(|&quant| quant != 0) {
        Some(Refusal::WrongCount)
    } else if wrong_sums {
        Some(Refusal::WrongSums)
    } else {
        None
    }
}

/// The sums of each 32 of the quants.
pub fn sums_of(qs: &[i8; PLACES]) -> [i32; 8] {
    let sum = |quants: &[i8]| quants.iter().map(|&quant| i32::from(quant)).sum();
    std::array::from_fn(|j| sum(&qs[SUMMED * j..][..SUMMED]))
}

/// What is asked of a block dot: so many bytes of weights, a block, and n.
pub struct Asked {
    pub bytes: usize,
    pub block: Q8Block,
    pub n: usize,
}

/// What was forged, and what is asked then.
pub struct Forged {
    weights: bool,
    count: bool,
    past: bool,
    sums: bool,
    pub asked: Asked,
}

impl Forged {
    /// Why a dot has to say no, by what was forged, in the documents' order.
    pub fn refusal(&self, kind: Kind, layout: &Layout) -> Option<Refusal> {
        match self {
            Forged { weights: true, .. } => Some(short(layout, self.asked.bytes, 1)),
            Forged { count: true, .. } | Forged { past: true, .. } => Some(Refusal::WrongCount),
            Forged { sums: true, .. } if kind == Kind::WithMinimums => Some(Refusal::WrongSums),
            _ => None,
        }
    }
}

/// A block of readings, with at least one thing of four forged: weights that are cut, a count that is
/// not n, a quant past the count, and sums.
pub fn of(random: &mut Random, made: &Q8Block, bytes: usize) -> Forged {
    let which = 1 + random.below(15);
    let [weights, count, past, sums] = [1, 2, 4, 8].map(|one| which & one != 0);
    let mut block = *made;
    if past {
        block = with_a_quant_past(random, &block);
    }
    let mut n = block.count();
    if count {
        (block, n) = with_another_count(random, &block);
    }
    if sums {
        block = with_other_sums(random, &block);
    }
    Forged {
        weights,
        count,
        past,
        sums,
        asked: Asked {
            bytes: bytes - if weights { 1 + random.below(bytes) } else { 0 },
            block,
            n,
        },
    }
}

/// A quant of a place past the count is another than 0, or the count is lower than it was and leaves
/// such a quant behind it. The sums are those of the quants.
fn with_a_quant_past(random: &mut Random, block: &Q8Block) -> Q8Block {
    let mut qs = *block.qs();
    let count = match block.count() {
        PLACES => random.below(PLACES),
        count => [count, random.below(count + 1)][random.below(2)],
    };
    let place = [count, PLACES - 1, count + random.below(PLACES - count)][random.below(3)];
    if qs[count..].iter().all(|&quant| quant == 0) || random.below(2) == 0 {
        qs[count..].fill(0);
        qs[place] = [1, -1, 127, -128, 64][random.below(5)];
    }
    Q8Block::from_parts(block.d(), qs, sums_of(&qs), count)
}

/// The block with a count that is not that of its readings, or an n that is not its count.
fn with_another_count(random: &mut Random, block: &Q8Block) -> (Q8Block, usize) {
    let right = block.count();
    let another = |random: &mut Random| match random.below(8) {
        0 => right + 1,
        1 => right.wrapping_sub(1),
        2 => PLACES - right,
        3 => PLACES + random.below(256),
        4 => right + PLACES,
        5 => right + (1 << 32),
        6 => random.u64() as usize,
        _ => random.below(PLACES + 1),
    };
    loop {
        let other = another(random);
        let (count, n) = [(other, right), (right, other), (other, other)][random.below(3)];
        // Counts that are the same up to 256 are right, or leave it to the quants.
        if n.min(PLACES) != count {
            let forged = Q8Block::from_parts(block.d(), *block.qs(), *block.bsums(), count);
            return (forged, n);
        }
    }
}

/// The block with one sum or two that are wrong, by a little, by as much as 16 bits do not tell, or
/// by any number.
fn with_other_sums(random: &mut Random, block: &Q8Block) -> Q8Block {
    let mut bsums = *block.bsums();
    while bsums == sums_of(block.qs()) {
        let place = random.below(8);
        let by = [1, -1, 65_536, -65_536, 1 << 24, random.u32() as i32][random.below(6)];
        bsums[place] = bsums[place].wrapping_add(by);
        if random.below(4) == 0 {
            let other = random.below(8);
            bsums[other] = bsums[other].wrapping_sub(by);
        }
    }
    Q8Block::from_parts(block.d(), *block.qs(), bsums, block.count())
}

#[cfg(test)]
mod tests {
    use super::*;
    use oracle::inputs::Q4_K;

    /// A block of ones, of which `count` are there.
    fn ones(count: usize) -> Q8Block {
        let qs = std::array::from_fn(|place| i8::from(place < count));
        Q8Block::from_parts(1.0, qs, sums_of(&qs), count)
    }

    fn says(block: &Q8Block, n: usize) -> Option<Refusal> {
        judged(Kind::WithMinimums, &Q4_K, 144, block, n)
    }

    #[test]
    fn n_is_the_count_and_is_held_at_256() {
        let wrong = Some(Refusal::WrongCount);
        assert_eq!(says(&ones(100), 100), None);
        assert_eq!(says(&ones(256), 100), wrong);
        assert_eq!(says(&ones(100), 256), wrong);
        assert_eq!(says(&ones(256), 257), None);
        assert_eq!(says(&ones(256), usize::MAX), None);
        assert_eq!(says(&ones(257), 257), wrong);
        assert_eq!(says(&ones(0), 0), None);
    }

    #[test]
    fn the_order_is_3_15_7() {
        let block = ones(256);
        let qs = *block.qs();
        let wrong = |count| Q8Block::from_parts(1.0, qs, [0; 8], count);
        let say = |kind, bytes, count| judged(kind, &Q4_K, bytes, &wrong(count), 256);
        assert_eq!(
            say(Kind::WithMinimums, 143, 100),
            Some(short(&Q4_K, 143, 1))
        );
        assert_eq!(say(Kind::WithMinimums, 144, 100), Some(Refusal::WrongCount));
        assert_eq!(say(Kind::WithMinimums, 144, 256), Some(Refusal::WrongSums));
        assert_eq!(say(Kind::WithoutMinimums, 144, 256), None);
    }

    #[test]
    fn what_was_forged_is_seen_in_what_it_is() {
        let mut random = Random::new(9);
        for turn in 0..20_000 {
            let forged = of(&mut random, &ones(turn % 257), 144);
            for kind in [Kind::WithMinimums, Kind::WithoutMinimums] {
                let Asked { bytes, block, n } = &forged.asked;
                let judged = judged(kind, &Q4_K, *bytes, block, *n);
                assert_eq!(judged, forged.refusal(kind, &Q4_K));
            }
        }
    }
}
