//! Gates over shares of a job (request P14), with Rust's own floats.

use crate::answers::{BAD_GATE, DONE, NO_TOTAL, PART_ABOVE_TOTAL};

pub const MATCHED_AT_LEAST: u64 = 1;
pub const UNREAD_AT_MOST: u64 = 2;
pub const MATCHED_BETWEEN: u64 = 3;

#[derive(Clone, Copy, Debug, PartialEq)]
pub enum Gate {
    /// So much is matched, or more.
    AtLeast(f64),
    /// So much is unread, or less.
    AtMost(f64),
    /// From the first to the second is matched.
    Between(f64, f64),
}

/// What a gate gives: pass or fail only with answer 0.
#[derive(Clone, Copy, Debug, PartialEq, Eq)]
pub struct Verdict {
    pub answer: u8,
    pub pass: bool,
}

impl Gate {
    /// The gate of a kind, with those of the two limits that are its own; of any other kind there is none.
    pub fn of_kind(kind: u64, a: f64, b: f64) -> Option<Gate> {
        match kind {
            MATCHED_AT_LEAST => Some(Gate::AtLeast(a)),
            UNREAD_AT_MOST => Some(Gate::AtMost(b)),
            MATCHED_BETWEEN => Some(Gate::Between(a, b)),
            _ => None,
        }
    }

    /// Whether a limit is no number from 0 to 1, or they are not in their order.
    pub fn is_bad(&self) -> bool {
        let bad = |limit: f64| limit.is_nan() || !(0.0..=1.0).contains(&limit);
        match *self {
            Gate::AtLeast(limit) | Gate::AtMost(limit) => bad(limit),
            Gate::Between(a, b) => bad(a) || bad(b) || a > b,
        }
    }

    fn holds(&self, share: f64) -> bool {
        match *self {
            Gate::AtLeast(a) => share >= a,
            Gate::AtMost(b) => share <= b,
            Gate::Between(a, b) => share >= a && share <= b,
        }
    }
}

/// 18 a limit, 19 no total, 20 a part above the total, in that order; else pass or fail.
pub fn verdict(kind: u64, a: f64, b: f64, part: u32, total: u32) -> Verdict {
    let refused = |answer| Verdict { answer, pass: false };
    let Some(gate) = Gate::of_kind(kind, a, b) else { return refused(BAD_GATE) };
    if gate.is_bad() {
        return refused(BAD_GATE);
    }
    if total == 0 {
        return refused(NO_TOTAL);
    }
    if part > total {
        return refused(PART_ABOVE_TOTAL);
    }
    let share = f64::from(part) / f64::from(total);
    Verdict { answer: DONE, pass: gate.holds(share) }
}
