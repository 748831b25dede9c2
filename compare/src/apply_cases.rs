//! Applying a script (P11) with figures by hand, on a pool and a script that end at an unreadable page.

use crate::applies::by_library;
use crate::cases::Case;
use reference::pool::{pool_length, MOST_NODES};

/// Words that are no pool's, each with its place in it.
fn words(length: usize) -> Vec<u64> {
    (0..length as u64).map(|place| place ^ 0x5A5A).collect()
}

/// The answer, and the places that have another value after it, with that value.
fn gives(length: usize, script: &[u64], answer: u64, changed: &[(usize, u64)]) -> Option<String> {
    let (mut pool, mut wanted) = (words(length), words(length));
    changed.iter().for_each(|(place, value)| wanted[*place] = *value);
    let found = by_library(&mut pool, script);
    let right = (found.answer, found.number) == (answer, 0) && pool == wanted;
    (!right).then(|| format!("wanted {answer}, 0, found {found:?}; words {}", pool == wanted))
}

pub fn apply_cases() -> Vec<Case> {
    let largest = pool_length(MOST_NODES);
    vec![
        ("apply: no pair", gives(74, &[], 0, &[])),
        ("apply: the first place", gives(74, &[0, 7], 0, &[(0, 7)])),
        ("apply: the last place", gives(74, &[73, u64::MAX], 0, &[(73, u64::MAX)])),
        ("apply: two", gives(74, &[3, 1, 5, 0], 0, &[(3, 1), (5, 0)])),
        ("apply: places that fall", gives(74, &[5, 0, 3, 1], 0, &[(3, 1), (5, 0)])),
        ("apply: a place twice", gives(74, &[5, 1, 5, 2], 0, &[(5, 2)])),
        ("apply: a word that is there", gives(74, &[1, 1 ^ 0x5A5A, 2, 9], 0, &[(2, 9)])),
        ("apply: the place behind", gives(74, &[74, 0], 17, &[])),
        ("apply: the second place behind", gives(74, &[0, 7, 74, 0], 17, &[])),
        ("apply: the largest place", gives(74, &[0, 7, u64::MAX, 0], 17, &[])),
        ("apply: a place of 2^61", gives(74, &[1 << 61, 0], 17, &[])),
        ("apply: half a pair", gives(74, &[0], 17, &[])),
        ("apply: a pair and a half", gives(74, &[0, 7, 1], 17, &[])),
        ("apply: half a pair behind", gives(74, &[74], 17, &[])),
        ("apply: a value is no place", gives(74, &[0, 74], 0, &[(0, 74)])),
        ("apply: no words", gives(0, &[0, 7], 1, &[])),
        ("apply: 73 words", gives(73, &[74], 1, &[])),
        ("apply: 75 words", gives(75, &[0, 7], 1, &[])),
        (
            "apply: the largest pool",
            gives(largest, &[largest as u64 - 1, 7], 0, &[(largest - 1, 7)]),
        ),
        ("apply: behind the largest", gives(largest, &[0, 7, largest as u64, 7], 17, &[])),
        ("apply: a node more", gives(pool_length(MOST_NODES + 1), &[0, 7], 1, &[])),
    ]
}
