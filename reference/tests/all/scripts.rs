//! Scripts and applying them (request P11), with pools, scripts and words written out by hand.

use crate::helpers::*;
use reference::answers::{BAD_SCRIPT, DONE, POOL_LENGTH};
use reference::scripts::{apply, script};

/// Words that are no pool's: each is its place with a high bit.
fn marked(length: usize) -> Vec<u64> {
    (0..length as u64).map(|place| place + (1 << 40)).collect()
}

/// What a script does to those words: its answer, and the words that are others then.
fn gives(length: usize, given: &[u64], answer: u8, changed: &[(usize, u64)]) {
    let (mut pool, mut wanted) = (marked(length), marked(length));
    changed.iter().for_each(|(place, value)| wanted[*place] = *value);
    assert_eq!(apply(&mut pool, given), outcome(answer.into(), 0), "{length} words, {given:?}");
    assert!(pool == wanted, "{length} words, {given:?}");
}

#[test]
fn a_script_is_what_differs_by_rising_place() {
    assert_eq!(script(&[], &[]), []);
    assert_eq!(script(&[5, 6, 7], &[5, 6, 7]), []);
    assert_eq!(script(&[5, 6, 7], &[8, 6, 0]), [0, 8, 2, 0]);
    assert_eq!(script(&[0, 0, 0], &[1, 2, 3]), [0, 1, 1, 2, 2, 3]);
}

/// Case 2 (R107): the head takes the word 3, and that is all.
#[test]
fn an_entry_as_head_is_one_pair() {
    let (fresh, after) = (Pool::fresh(1), case_2(1));
    assert_eq!(script(&fresh.words, &after.words), [1, 3]);
}

/// Case 11 (R116): an erase of 64 frees the three nodes of case 3, of which the words that are not 0 are, by R29:
/// of the head (shift 6) its shift + 1, its filled count and slots 0 and 1; of node 1, shift + 1, owner 1 (node 0,
/// slot 0), filled count and slot 0; of node 2 the same, in slot 1 of node 0.
#[test]
fn a_freed_node_has_a_pair_for_each_word_that_was_not_0() {
    let (before, after) = (case_3(3), case_2(3));
    let erased = [
        1, 3, 4, 0, 6, 0, 10, 0, 11, 0, 74, 0, 75, 0, 76, 0, 80, 0, 144, 0, 145, 0, 146, 0, 150, 0,
    ];
    assert_eq!(script(&before.words, &after.words), erased);
    let mut words = before.words.clone();
    assert_eq!(apply(&mut words, &erased), outcome(DONE.into(), 0));
    assert_eq!(words, after.words);
}

#[test]
fn each_pair_is_written_in_turn() {
    gives(74, &[], DONE, &[]);
    gives(74, &[0, 9], DONE, &[(0, 9)]);
    gives(74, &[73, 0], DONE, &[(73, 0)]);
    gives(74, &[2, 5, 70, 6], DONE, &[(2, 5), (70, 6)]);
    gives(74, &[70, 6, 2, 5], DONE, &[(2, 5), (70, 6)]);
    gives(74, &[7, 1, 7, 2], DONE, &[(7, 2)]);
    gives(74, &[7, 2, 7, 1, 8, 74], DONE, &[(7, 1), (8, 74)]);
    gives(144, &[143, u64::MAX], DONE, &[(143, u64::MAX)]);
}

#[test]
fn a_place_outside_or_half_a_pair_is_refused_before_any_write() {
    for place in [74, 75, 1 << 32, 1 << 61, (1 << 61) + 1, u64::MAX] {
        gives(74, &[place, 9], BAD_SCRIPT, &[]);
        gives(74, &[0, 9, place, 9], BAD_SCRIPT, &[]);
        gives(74, &[place, 9, 0, 9], BAD_SCRIPT, &[]);
    }
    gives(74, &[0], BAD_SCRIPT, &[]);
    gives(74, &[74], BAD_SCRIPT, &[]);
    gives(74, &[0, 9, 1], BAD_SCRIPT, &[]);
    gives(74, &[0, 9, 74, 9, 1], BAD_SCRIPT, &[]);
}

/// 1 stands before 17, and the size is all that is looked at.
#[test]
fn other_sizes_are_refused_first() {
    for length in [0, 1, 4, 73, 75, 143, 145, 1_146_954] {
        gives(length, &[], POOL_LENGTH, &[]);
        gives(length, &[0, 9], POOL_LENGTH, &[]);
        gives(length, &[0], POOL_LENGTH, &[]);
        gives(length, &[u64::MAX, 9], POOL_LENGTH, &[]);
    }
    gives(1_146_884, &[1_146_883, 9], DONE, &[(1_146_883, 9)]);
    gives(1_146_884, &[0, 9, 1_146_884, 9], BAD_SCRIPT, &[]);
}

/// Cut after any number of its writes, and again, the script of case 3 after case 2 gives the words of case 3.
#[test]
fn applying_again_after_a_cut_ends_where_the_uncut_one_does() {
    let (before, after) = (case_2(3), case_3(3));
    let given = script(&before.words, &after.words);
    for first in (0..=given.len()).step_by(2) {
        for second in (0..=given.len()).step_by(2) {
            let mut words = before.words.clone();
            for part in [&given[..first], &given[..second], &given] {
                assert_eq!(apply(&mut words, part), outcome(DONE.into(), 0));
            }
            assert_eq!(words, after.words);
        }
    }
}
