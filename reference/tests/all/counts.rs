//! The filled count of a node (request P7): its place, its number by hand, and that any other is refused.

use crate::helpers::*;
use reference::batch::Command;
use reference::calls::{check, init, list, run};

/// The filled counts of the first nodes.
fn counts(pool: &Pool, nodes: usize) -> Vec<u64> {
    (0..nodes).map(|number| pool.words[count_at(number)]).collect()
}

/// Case 3 with marks 0 and 2 on index 64, word by word: the anchor, then node 0, the head.
#[test]
fn it_stands_after_the_owner() {
    let mut pool = case_3(3);
    pool.expect_mark(64, 0, gives(64, 0, 5, 1));
    pool.expect_mark(64, 2, gives(64, 0, 5, 5));
    assert_eq!(pool.words[..4], [3, 4098, 5, 0]);
    assert_eq!(pool.words[4..14], [7, 0, 2, 2, 0, 2, 4102, 4106, 0, 0]);
    assert_eq!(pool.words[74..84], [1, 1, 1, 0, 0, 0, 3, 0, 0, 0]);
    assert_eq!(pool.words[144..154], [1, 2, 1, 1, 0, 1, 5, 0, 0, 0]);
    assert_eq!(pool.words.len(), 214);
}

#[test]
fn entries_siblings_and_reservations_count() {
    let mut pool = Pool::fresh(1);
    pool.expect_store(8, 3, 7, gives(8, 3, 7, 0));
    assert_eq!(counts(&pool, 1), [8]);
    pool.expect_store(32, 5, 9, gives(32, 5, 9, 0));
    assert_eq!(counts(&pool, 1), [40]);
    pool.put(0, 3);
    pool.expect(Command::Reserve { index: 1 }, gives(1, 0, 0, 0));
    assert_eq!(counts(&pool, 1), [42]);
    // What is written again, marked or refused fills no slot.
    pool.expect_store(10, 0, 11, gives(8, 3, 11, 0));
    pool.expect_mark(0, 1, gives(0, 0, 3, 2));
    pool.expect_store(64, 0, 5, only(11));
    assert_eq!(counts(&pool, 1), [42]);
    pool.expect_erase(40, gives(32, 5, 9, 0));
    pool.expect_erase(1, gives(1, 0, 0, 0));
    assert_eq!(counts(&pool, 1), [9]);
    pool.expect_erase(15, gives(8, 3, 11, 0));
    pool.assert_words(&[(1, 3), (2, 2)]);
}

#[test]
fn a_full_node_and_the_widest_one() {
    let mut pool = Pool::fresh(1);
    (0..64).for_each(|index| pool.put(index, 3));
    assert_eq!(counts(&pool, 1), [64]);
    let mut pool = Pool::fresh(1);
    pool.expect_store(1 << 63, 63, 7, gives(1 << 63, 63, 7, 0));
    assert_eq!(counts(&pool, 1), [8]);
    pool.expect_store(0, 63, 5, gives(0, 63, 5, 0));
    assert_eq!(counts(&pool, 1), [16]);
}

/// Nodes 0 (the head), 1 and 2 are those of case 3; 4095 is below the head's slot 63.
#[test]
fn nodes_below_count_once_each() {
    let mut pool = case_3(4);
    assert_eq!(counts(&pool, 4), [2, 1, 1, 0]);
    pool.put(4095, 7);
    pool.put(65, 9);
    assert_eq!(counts(&pool, 4), [3, 1, 2, 1]);
    // Both entries below slot 1 go, and with them their node; the slot holds the new entry.
    pool.expect_store(64, 6, 11, gives(64, 6, 11, 0));
    assert_eq!(counts(&pool, 4), [3, 1, 0, 1]);
    pool.expect_erase(4095, gives(4095, 0, 7, 0));
    assert_eq!(counts(&pool, 4), [2, 1, 0, 0]);
}

fn assert_refused(words: &[u64]) {
    assert_eq!(check(words), outcome(2, 0));
    let mut pool = words.to_vec();
    assert_eq!(run(&mut pool, &[], &mut []), outcome(2, 0));
    assert_eq!(pool, words);
    assert_eq!(list(words, 0, LAST, &mut []), outcome(2, 0));
}

#[test]
fn any_other_count_is_refused() {
    let mut pool = case_3(4);
    pool.expect_store(8, 3, 7, gives(8, 3, 7, 0));
    assert_eq!(counts(&pool, 4), [2, 9, 1, 0]);
    for number in 0..4 {
        let right = pool.words[count_at(number)];
        let near = [right + 1, right.wrapping_sub(1), right + 64, 63, 64, 65];
        let wrong = near.into_iter().chain([0, right + (1 << 32), right | 1 << 63, LAST]);
        for count in wrong.filter(|count| *count != right) {
            assert_refused(&with_word(&pool.words, count_at(number), count));
        }
    }
}

/// A slot filled or emptied without its count: a leaf's, where either list could be meant.
#[test]
fn a_slot_without_its_count_is_refused() {
    let pool = case_3(3);
    let mut more = pool.words.clone();
    more[slot_at(1, 5)] = 9;
    assert_refused(&more);
    assert_eq!(check(&with_word(&pool.words, slot_at(1, 5), 9)), outcome(0, 0));
    let mut fewer = with_word(&pool.words, slot_at(1, 5), 9);
    fewer[slot_at(1, 5)] = 0;
    assert_refused(&fewer);
}

#[test]
fn init_sets_every_count_to_0() {
    let mut words = vec![JUNK; length_of(5)];
    assert_eq!(init(&mut words), outcome(0, 0));
    assert_eq!(words, [&[5][..], &[0; 353]].concat());
}
