//! The five easy ways to get it wrong (R121 to R125), each with what is right.

use crate::helpers::*;

/// 64 * 2^60 is 2^66; the head of shift 60 covers all indices, and find ends at 2^64.
#[test]
fn the_widest_block_does_not_wrap() {
    let mut pool = Pool::fresh(11);
    pool.put(1 << 60, 7);
    assert_eq!(pool.words[1], node_word(0));
    assert_eq!(pool.words[at(0, 0)], 61);
    pool.expect_load(1 << 60, counting(gives(1 << 60, 0, 7, 0), 11));
    pool.expect_load(LAST, counting(only(10), 1));
    pool.expect_find(LAST, 3, 5, counting(only(12), 1));
    pool.expect_find(0, 3, 5, counting(gives(1 << 60, 0, 7, 0), 2));
    pool.expect_find((1 << 60) - 1, 0, 99, counting(only(12), 16));
}

#[test]
fn a_parent_mark_stays_while_a_brother_slot_has_it() {
    let mut pool = case_3(3);
    pool.put(1, 9);
    for (index, word) in [(0, 3), (1, 9), (64, 5)] {
        pool.expect_mark(index, 2, gives(index, 0, word, 4));
    }
    let marks = |pool: &Pool| (pool.words[2], [0, 1, 2].map(|n| pool.words[mark_at(n, 2)]));
    assert_eq!(marks(&pool), (4, [3, 3, 1]));
    pool.expect_unmark(0, 2, gives(0, 0, 3, 0));
    assert_eq!(marks(&pool), (4, [3, 2, 1]));
    pool.expect_unmark(1, 2, gives(1, 0, 9, 0));
    assert_eq!(marks(&pool), (4, [2, 0, 1]));
    pool.expect_unmark(64, 2, gives(64, 0, 5, 0));
    assert_eq!(marks(&pool), (0, [0, 0, 0]));
}

#[test]
fn the_head_does_not_shrink_past_an_order_6_entry_in_slot_0() {
    let mut pool = Pool::fresh(2);
    pool.expect_store(0, 6, 7, gives(0, 6, 7, 0));
    pool.put(64, 9);
    pool.expect_erase(64, gives(64, 0, 9, 0));
    let mut named = vec![(1, node_word(0))];
    named.extend(node(0, 6, 0, &[(0, 7)]));
    pool.assert_words(&named);
}

/// Order 6 at 0 over an entry at 1 needs a node of shift 6 and frees the one of shift 0. The
/// freed one is no use to that store, but it is to the next command.
#[test]
fn nodes_that_a_store_frees_are_not_free_for_it() {
    let mut pool = Pool::fresh(1);
    pool.put(1, 5);
    assert_eq!(pool.needed(0, 6), 1);
    pool.expect_store(0, 6, 7, only(11));

    let mut pool = Pool::fresh(2);
    pool.put(1, 5);
    pool.expect_store(0, 6, 7, gives(0, 6, 7, 0));
    let mut named = vec![(1, node_word(1))];
    named.extend(node(1, 6, 0, &[(0, 7)]));
    pool.assert_words(&named);
    pool.put(64, 9);
    named.push((slot_at(1, 1), node_word(0)));
    named.extend(node(0, 0, 1 + 64 + 1, &[(0, 9)]));
    pool.assert_words(&named);
}

#[test]
fn find_sees_an_entry_that_begins_before_first() {
    let mut pool = Pool::fresh(1);
    pool.expect_store(8, 3, 7, gives(8, 3, 7, 0));
    pool.expect_find(13, 3, 1, counting(gives(8, 3, 7, 0), 1));
    pool.expect_mark(15, 1, gives(8, 3, 7, 2));
    pool.expect_find(13, 1, 1, counting(gives(8, 3, 7, 2), 1));
    let passed = Said { answer: 13, index: 16, count: 1, ..Said::default() };
    pool.expect_find(13, 0, 1, passed);
}
