//! Holding ours to what it is to be: its answers, and the memory that was lent to it.
use crate::compare::{Compared, Difference};
use crate::tally;
use jambharrow::Refusal;

/// Whether two floats are the same bits, or both NaN.
pub fn same(a: f32, b: f32) -> bool {
    a.to_bits() == b.to_bits() || a.is_nan() && b.is_nan()
}

/// Holds a call that works out a value to document 01's refusal, and where that has none to the
/// Rust's value.
pub fn value(
    refusal: Option<Refusal>,
    rust: impl FnOnce() -> f32,
    ours: Result<f32, Refusal>,
    input: impl Fn() -> String,
) -> Compared {
    tally::count(refusal);
    let wanted = match refusal {
        Some(refusal) => Err(refusal),
        None => Ok(rust()),
    };
    let agree = match (wanted, ours) {
        (Ok(wanted), Ok(ours)) => same(wanted, ours),
        (wanted, ours) => wanted == ours,
    };
    if agree {
        return Ok(1);
    }
    Err(Difference {
        input: input(),
        wanted: shown(wanted),
        ours: shown(ours),
    })
}

/// Holds what a call that fills lent memory says to document 01's refusal, or to its having none.
pub fn outcome(
    refusal: Option<Refusal>,
    ours: Result<(), Refusal>,
    input: impl Fn() -> String,
) -> Result<(), Difference> {
    tally::count(refusal);
    if ours.err() == refusal {
        return Ok(());
    }
    let shown =
        |refusal: Option<Refusal>| refusal.map_or("done".into(), |refusal| refusal.to_string());
    Err(Difference {
        input: input(),
        wanted: shown(refusal),
        ours: shown(ours.err()),
    })
}

/// A value's bits, or a refusal: its number and what it says, of short weights the two counts.
pub fn shown(answer: Result<f32, Refusal>) -> String {
    match answer {
        Ok(value) => format!("{:08X}", value.to_bits()),
        Err(refusal) => refusal.to_string(),
    }
}

/// What stands in one place of lent memory.
pub trait Place: Copy {
    fn bits(self) -> u64;

    /// Whether this may be written where the Rust writes `other`.
    fn stands_for(self, other: Self) -> bool;
}

impl Place for f32 {
    fn bits(self) -> u64 {
        self.to_bits().into()
    }

    fn stands_for(self, other: f32) -> bool {
        same(self, other)
    }
}

impl Place for u8 {
    fn bits(self) -> u64 {
        self.into()
    }

    fn stands_for(self, other: u8) -> bool {
        self == other
    }
}

impl Place for i8 {
    fn bits(self) -> u64 {
        (self as u8).into()
    }

    fn stands_for(self, other: i8) -> bool {
        self == other
    }
}

impl Place for i32 {
    fn bits(self) -> u64 {
        (self as u32).into()
    }

    fn stands_for(self, other: i32) -> bool {
        self == other
    }
}

impl Place for u64 {
    fn bits(self) -> u64 {
        self
    }

    fn stands_for(self, other: u64) -> bool {
        self == other
    }
}

/// Floats of all bits, another at each place: memory before it is lent.
pub fn memory(len: usize) -> Vec<f32> {
    marks(len).map(f32::from_bits).collect()
}

/// Bytes, of which neighbours differ: memory before it is lent.
pub fn bytes(len: usize) -> Vec<u8> {
    marks(len).map(|mark| (mark >> 24) as u8).collect()
}

/// Signed bytes, of which neighbours differ: memory before it is lent.
pub fn signed_bytes(len: usize) -> Vec<i8> {
    marks(len).map(|mark| (mark >> 24) as i8).collect()
}

/// Whole numbers of all bits, another at each place: memory before it is lent.
pub fn whole_numbers(len: usize) -> Vec<i32> {
    marks(len).map(|mark| mark as i32).collect()
}

/// Counts of all bits, another at each place: memory before it is lent.
pub fn counts(len: usize) -> Vec<u64> {
    marks(len)
        .map(|mark| u64::from(mark) << 32 | u64::from(!mark))
        .collect()
}

fn marks(len: usize) -> impl Iterator<Item = u32> {
    (1..=len as u32).map(|place| place.wrapping_mul(0x9E37_79B9))
}

/// Holds memory after a call to what is to stand in it: `written` from place `at` on, and at every
/// other place the bits of `before`.
pub fn places<P: Place>(
    at: usize,
    written: &[P],
    before: &[P],
    after: &[P],
    input: impl Fn() -> String,
) -> Compared {
    let end = at + written.len();
    let kept = |from: usize, to: usize| {
        (from..to).find(|&place| before[place].bits() != after[place].bits())
    };
    let wrong = kept(0, at)
        .or_else(|| (at..end).find(|&place| !after[place].stands_for(written[place - at])))
        .or_else(|| kept(end, after.len()));
    let Some(place) = wrong else {
        return Ok(written.len() as u64);
    };
    let wanted = if (at..end).contains(&place) {
        written[place - at]
    } else {
        before[place]
    };
    Err(Difference {
        input: format!("{}, place {place}, lent from {at} on", input()),
        wanted: format!("{:08X}", wanted.bits()),
        ours: format!("{:08X}", after[place].bits()),
    })
}

#[cfg(test)]
mod tests {
    use super::*;
    use jambharrow::Blocks;

    /// A refusal of short weights, without counts and with two.
    const PLAIN: Refusal = Refusal::WeightsShort(None);
    const COUNTED: Refusal = Refusal::WeightsShort(Some(Blocks {
        found: 8,
        needed: 16,
    }));
    /// The same, with one count that is another.
    const OTHERS: [Refusal; 2] = [
        Refusal::WeightsShort(Some(Blocks {
            found: 7,
            needed: 16,
        })),
        Refusal::WeightsShort(Some(Blocks {
            found: 8,
            needed: 17,
        })),
    ];

    /// Whether each way to hold an answer finds this one to be another than the one wanted.
    fn differs(wanted: Refusal, ours: Refusal) -> [bool; 2] {
        let of_value = value(Some(wanted), || 0.0, Err(ours), String::new);
        let of_outcome = outcome(Some(wanted), Err(ours), String::new);
        [of_value.is_err(), of_outcome.is_err()]
    }

    #[test]
    fn another_count_is_a_difference() {
        assert_eq!(differs(COUNTED, COUNTED), [false; 2]);
        assert_eq!(differs(PLAIN, PLAIN), [false; 2]);
        for other in [PLAIN, OTHERS[0], OTHERS[1]] {
            assert_eq!(differs(COUNTED, other), [true; 2]);
            assert_eq!(differs(other, COUNTED), [true; 2]);
        }
    }

    #[test]
    fn a_difference_of_counts_shows_both() {
        let Err(shown) = outcome(Some(COUNTED), Err(OTHERS[1]), || "a row".into()) else {
            panic!("8 of 16 is not 8 of 17");
        };
        let wanted = "refused 3: 8 whole blocks of weights, 16 needed";
        let ours = "refused 3: 8 whole blocks of weights, 17 needed";
        assert_eq!(
            shown.to_string(),
            format!("a row: wanted {wanted}, ours {ours}")
        );
    }
}
