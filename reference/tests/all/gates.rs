//! Gates (request P14): limits, totals, parts, and shares beside their limits.

use reference::gates::verdict;

const MOST: u32 = u32::MAX;
/// The float nearest 1/3: 6,004,799,503,160,661 of 2^54.
const THIRD: u64 = 0x3FD5_5555_5555_5555;

fn answers(kind: u64, a: f64, b: f64, counts: [u32; 2], answer: u8) {
    let given = verdict(kind, a, b, counts[0], counts[1]);
    assert_eq!((given.answer, given.pass), (answer, false), "{kind} {a} {b} {counts:?}");
}

fn passes(kind: u64, a: f64, b: f64, counts: [u32; 2], pass: bool) {
    let given = verdict(kind, a, b, counts[0], counts[1]);
    assert_eq!((given.answer, given.pass), (0, pass), "{kind} {a} {b} {counts:?}");
}

/// Not a number by several patterns, quiet, signalling and negative; infinite; just outside 0 to 1.
fn bad_limits() -> Vec<f64> {
    let nans = [0x7FF8 << 48, 0x7FF0_0000_0000_0001, 0xFFF8 << 48, 0x7FFF_FFFF_FFFF_FFFF, u64::MAX];
    let mut limits: Vec<f64> = nans.map(f64::from_bits).to_vec();
    limits.extend([f64::INFINITY, f64::NEG_INFINITY, -1.0, 2.0, f64::MAX, f64::MIN]);
    limits.extend([f64::from_bits(0x8000_0000_0000_0001), f64::from_bits(0x3FF0_0000_0000_0001)]);
    limits
}

#[test]
fn bad_limits_are_18_whatever_the_counts() {
    for bad in bad_limits() {
        for counts in [[0, 0], [0, 1], [1, 1], [2, 1], [1, 0], [MOST, MOST]] {
            answers(1, bad, 0.5, counts, 18);
            answers(2, 0.5, bad, counts, 18);
            answers(3, bad, 0.5, counts, 18);
            answers(3, 0.5, bad, counts, 18);
        }
    }
    answers(3, 0.5, 0.25, [0, 0], 18);
    answers(3, f64::from_bits(THIRD + 1), f64::from_bits(THIRD), [2, 1], 18);
}

#[test]
fn a_limit_of_another_kind_is_not_looked_at() {
    for bad in bad_limits() {
        passes(1, 0.5, bad, [1, 2], true);
        passes(2, bad, 0.5, [1, 2], true);
    }
    passes(1, 0.5, 0.25, [1, 2], true);
    passes(2, 0.5, 0.25, [1, 4], true);
}

#[test]
fn other_kinds_are_18() {
    for kind in [0, 4, 5, 257, 1 << 32, (1 << 32) + 1, u64::MAX] {
        answers(kind, 0.0, 1.0, [1, 1], 18);
        answers(kind, 0.0, 1.0, [1, 0], 18);
    }
}

#[test]
fn no_total_is_19_before_20() {
    for kind in 1..=3 {
        for part in [0, 1, MOST] {
            answers(kind, 0.0, 1.0, [part, 0], 19);
        }
        for counts in [[1 + 1, 1], [MOST, MOST - 1], [MOST, 1]] {
            answers(kind, 0.0, 1.0, counts, 20);
        }
    }
}

#[test]
fn zero_and_one() {
    for kind in 1..=3 {
        passes(kind, 0.0, 1.0, [0, 1], true);
        passes(kind, 0.0, 1.0, [1, 1], true);
        passes(kind, -0.0, 1.0, [0, 1], true);
    }
    passes(2, 0.0, -0.0, [0, 1], true);
    passes(2, 0.0, 0.0, [1, MOST], false);
    passes(3, 0.0, -0.0, [0, 1], true);
    passes(3, -0.0, 0.0, [1, 1], false);
    passes(1, 1.0, 0.0, [MOST, MOST], true);
    passes(1, 1.0, 0.0, [MOST - 1, MOST], false);
    passes(1, f64::from_bits(1), 0.0, [0, 1], false);
    passes(1, f64::from_bits(1), 0.0, [1, MOST], true);
    passes(2, 0.0, f64::from_bits(1), [0, 1], true);
    passes(2, 0.0, f64::from_bits(1), [1, MOST], false);
}

#[test]
fn a_third_and_its_neighbours() {
    let at = |bits| f64::from_bits(bits);
    passes(1, at(THIRD), 0.0, [1, 3], true);
    passes(1, at(THIRD - 1), 0.0, [1, 3], true);
    passes(1, at(THIRD + 1), 0.0, [1, 3], false);
    passes(2, 0.0, at(THIRD), [1, 3], true);
    passes(2, 0.0, at(THIRD - 1), [1, 3], false);
    passes(2, 0.0, at(THIRD + 1), [1, 3], true);
    passes(3, at(THIRD), at(THIRD), [1, 3], true);
    passes(3, at(THIRD - 1), at(THIRD - 1), [1, 3], false);
    passes(3, at(THIRD + 1), at(THIRD + 1), [1, 3], false);
    passes(3, at(THIRD - 1), at(THIRD + 1), [1_431_655_765, MOST], true);
}
