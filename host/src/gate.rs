//! Gates: whether a share of a job is within its limits.

use crate::raw::{self, RawResult};
use std::error::Error;
use std::fmt;
use std::hint::black_box;

/// Limits, from 0 to 1, for the share that a part has of a total: one division of floats, rounded once.
#[derive(Clone, Copy, Debug, PartialEq)]
pub enum Gate {
    /// The matched share is at least this.
    MatchedAtLeast(f64),
    /// The unread share is at most this.
    UnreadAtMost(f64),
    /// The matched share is from the first to the second.
    MatchedBetween(f64, f64),
}

/// A gate that was refused: it neither passed nor failed, and is no pass.
#[derive(Clone, Copy, Debug, PartialEq, Eq)]
pub enum GateRefusal {
    /// This thread's floats are not as IEEE 754 has them: [`floats_are_ieee`] is false. The library was not asked.
    Floats,
    /// A limit is no number from 0 to 1, or the first is above the second.
    BadGate,
    /// The total is 0, of which nothing passes.
    NoTotal,
    /// The part is above the total.
    PartAboveTotal,
    /// The library gave what it never gives. Is it the right library?
    Unexpected {
        /// What it gave as answer.
        answer: u64,
        /// What it gave as number.
        number: u64,
    },
}

impl fmt::Display for GateRefusal {
    fn fmt(&self, f: &mut fmt::Formatter) -> fmt::Result {
        f.write_str(match self {
            GateRefusal::Floats => {
                "the floats of this thread do not round to nearest, or lose subnormals: no gate can be asked"
            }
            GateRefusal::BadGate => "a limit is not a number from 0 to 1, or the first is above the second",
            GateRefusal::NoTotal => "the total is 0: there is nothing to pass",
            GateRefusal::PartAboveTotal => "the part is above the total",
            GateRefusal::Unexpected { answer, number } => {
                return write!(f, "the library gave answer {answer} with number {number}")
            }
        })
    }
}

impl Error for GateRefusal {}

impl Gate {
    /// Whether it passes, by the proved call; the library is asked only if [`floats_are_ieee`].
    ///
    /// ```
    /// use xapool_host::{Gate, GateRefusal};
    ///
    /// assert_eq!(Gate::MatchedAtLeast(0.999).passes(9_990, 10_000), Ok(true));
    /// assert_eq!(Gate::MatchedAtLeast(1.0).passes(u32::MAX - 1, u32::MAX), Ok(false));
    /// assert_eq!(Gate::UnreadAtMost(0.0).passes(0, 0), Err(GateRefusal::NoTotal));
    /// assert_eq!(Gate::UnreadAtMost(f64::NAN).passes(0, 1), Err(GateRefusal::BadGate));
    /// ```
    pub fn passes(self, part: u32, total: u32) -> Result<bool, GateRefusal> {
        if !floats_are_ieee() {
            return Err(GateRefusal::Floats);
        }
        let (kind, a, b) = match self {
            Gate::MatchedAtLeast(a) => (1, a, 0.0),
            Gate::UnreadAtMost(b) => (2, 0.0, b),
            Gate::MatchedBetween(a, b) => (3, a, b),
        };
        match raw::gate(kind, a, b, part, total) {
            RawResult { answer: 0, number: 1 } => Ok(true),
            RawResult { answer: 0, number: 0 } => Ok(false),
            RawResult { answer: 18, .. } => Err(GateRefusal::BadGate),
            RawResult { answer: 19, .. } => Err(GateRefusal::NoTotal),
            RawResult { answer: 20, .. } => Err(GateRefusal::PartAboveTotal),
            RawResult { answer, number } => Err(GateRefusal::Unexpected { answer, number }),
        }
    }
}

/// Whether this thread has floats as [`Gate`] needs them: divisions are rounded to nearest (1/3 down and 1/5 up: no
/// one division tells all modes), and a subnormal is not read as 0. A library in the same process that was linked
/// with `-ffast-math`, or `fesetround` in C, leaves others.
#[must_use]
pub fn floats_are_ieee() -> bool {
    // The boxes keep the compiler from dividing itself. It may take any mode for the default one, but what it
    // leaves to the thread is compared as bits.
    let third = black_box(1.0_f64) / black_box(3.0);
    let fifth = black_box(1.0_f64) / black_box(5.0);
    let least = black_box(f64::from_bits(1));
    black_box(third).to_bits() == 0x3FD5_5555_5555_5555
        && black_box(fifth).to_bits() == 0x3FC9_9999_9999_999A
        && least > black_box(0.0)
}
