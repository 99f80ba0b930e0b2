//! How often documents 01 and 02 give each number that says no.
use jambharrow::Refusal;
use std::fmt;
use std::sync::atomic::{AtomicU64, Ordering};

/// The numbers that say no are 1 to 15.
const NUMBERS: usize = 16;

static COUNTS: [AtomicU64; NUMBERS] = [const { AtomicU64::new(0) }; NUMBERS];

/// Counts what the documents say of one call, where that is a number.
pub fn count(refusal: Option<Refusal>) {
    if let Some(refusal) = refusal {
        COUNTS[refusal.number() as usize].fetch_add(1, Ordering::Relaxed);
    }
}

/// What was counted since the last time.
pub fn taken() -> Tally {
    Tally(std::array::from_fn(|number| {
        COUNTS[number].swap(0, Ordering::Relaxed)
    }))
}

#[derive(Clone, Default)]
pub struct Tally([u64; NUMBERS]);

impl Tally {
    pub fn add(&mut self, other: &Tally) {
        for (count, more) in self.0.iter_mut().zip(other.0) {
            *count += more;
        }
    }
}

impl fmt::Display for Tally {
    fn fmt(&self, to: &mut fmt::Formatter<'_>) -> fmt::Result {
        let mut before = "refused ";
        for (number, count) in self.0.iter().enumerate() {
            if *count > 0 {
                write!(to, "{before}{count} with {number}")?;
                before = ", ";
            }
        }
        match before {
            ", " => Ok(()),
            _ => write!(to, "none refused"),
        }
    }
}
