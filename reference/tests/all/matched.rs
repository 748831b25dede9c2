//! Mark 2 goes with every store that replaces something (request P5); whole pools of words.

use crate::helpers::*;

/// Sets these marks of an entry of order 0 or more, one after the other.
fn set_marks(pool: &mut Pool, entry: (u64, u8, u64), marks: &[u8]) {
    let (base, order, word) = entry;
    let mut byte = 0;
    for mark in marks {
        byte |= 1 << mark;
        pool.expect_mark(base, *mark, gives(base, order, word, byte));
    }
}

/// Index 64 is in slot 1 of the head, so mark 0 of that slot is bit 1 of its mark word.
#[test]
fn an_entry_with_marks_0_and_2_replaced_by_a_wider_one() {
    let mut pool = Pool::fresh(2);
    pool.put(64, 5);
    set_marks(&mut pool, (64, 0, 5), &[0, 2]);
    let mut named = vec![(1, node_word(0)), (2, 5), (mark_at(0, 0), 2), (mark_at(0, 2), 2)];
    named.extend([(mark_at(1, 0), 1), (mark_at(1, 2), 1)]);
    named.extend(node(0, 6, 0, &[(1, node_word(1))]));
    named.extend(node(1, 0, 2, &[(0, 5)]));
    pool.assert_words(&named);

    pool.expect_store(64, 6, 9, gives(64, 6, 9, 1));
    let mut named = vec![(1, node_word(0)), (2, 1), (mark_at(0, 0), 2)];
    named.extend(node(0, 6, 0, &[(1, 9)]));
    pool.assert_words(&named);
    pool.expect_load(100, counting(gives(64, 6, 9, 1), 1));
}

/// All of marks 0, 1 and 2 on two entries, mark 2 on both: one entry of order 6 has 0 and 1.
#[test]
fn several_replaced_entries() {
    let mut pool = Pool::fresh(2);
    pool.put(64, 5);
    pool.put(65, 7);
    set_marks(&mut pool, (64, 0, 5), &[0, 2]);
    set_marks(&mut pool, (65, 0, 7), &[2, 1]);
    pool.expect_store(64, 6, 9, gives(64, 6, 9, 3));
    let mut named = vec![(1, node_word(0)), (2, 3), (mark_at(0, 0), 2), (mark_at(0, 1), 2)];
    named.extend(node(0, 6, 0, &[(1, 9)]));
    pool.assert_words(&named);
}

/// Entries 3 at 0, 9 at 1 and 5 at 64, all with mark 2. As each is stored again with its own word,
/// its bit goes, then the parent's when no other slot of the node has it, the anchor's at last.
#[test]
fn the_same_word_stored_again() {
    let mut pool = case_3(3);
    pool.put(1, 9);
    for (index, word) in [(0, 3), (1, 9), (64, 5)] {
        pool.expect_mark(index, 2, gives(index, 0, word, 4));
    }
    let words = |anchor, head, low, high| {
        let mut named = vec![(1, node_word(0)), (2, anchor)];
        named.extend([(mark_at(0, 2), head), (mark_at(1, 2), low), (mark_at(2, 2), high)]);
        named.extend(node(0, 6, 0, &[(0, node_word(1)), (1, node_word(2))]));
        named.extend(node(1, 0, 1, &[(0, 3), (1, 9)]));
        named.extend(node(2, 0, 2, &[(0, 5)]));
        named
    };
    pool.assert_words(&words(4, 3, 3, 1));
    pool.expect_store(0, 0, 3, gives(0, 0, 3, 0));
    pool.assert_words(&words(4, 3, 2, 1));
    pool.expect_store(1, 0, 9, gives(1, 0, 9, 0));
    pool.assert_words(&words(4, 2, 0, 1));
    pool.expect_store(64, 0, 5, gives(64, 0, 5, 0));
    pool.assert_words(&words(0, 0, 0, 0));
}

/// Only the word of an entry of order 3 changes, or not even that; marks 0 and 1 stay.
#[test]
fn a_store_into_a_larger_entry_or_one_of_its_order() {
    for (index, order, word) in [(10, 0, 7), (10, 0, 9), (8, 3, 7), (8, 3, 9), (12, 2, 9)] {
        let mut pool = Pool::fresh(1);
        pool.expect_store(8, 3, 7, gives(8, 3, 7, 0));
        set_marks(&mut pool, (8, 3, 7), &[2, 0, 1]);
        pool.expect_store(index, order, word, gives(8, 3, word, 3));
        let bit = 1 << 8;
        let mut named = vec![(1, node_word(0)), (2, 3), (mark_at(0, 0), bit), (mark_at(0, 1), bit)];
        named.extend(node(0, 0, 0, &[(8, word)]));
        named.extend((9..=15).map(|slot| (slot_at(0, slot), 34)));
        pool.assert_words(&named);
    }
}

#[test]
fn an_entry_as_head() {
    let mut pool = case_2(1);
    set_marks(&mut pool, (0, 0, 3), &[2, 1]);
    pool.assert_words(&[(1, 3), (2, 6)]);
    pool.expect_store(0, 0, 3, gives(0, 0, 3, 2));
    pool.assert_words(&[(1, 3), (2, 2)]);
}

/// The head's mark bits go through four nodes: 2^18 needs shifts 18, 12, 6 and 0.
#[test]
fn every_parent_up_to_the_head() {
    let mut pool = Pool::fresh(4);
    let index = 1 << 18;
    pool.put(index, 7);
    set_marks(&mut pool, (index, 0, 7), &[2]);
    let bits = |pool: &Pool| (pool.words[2], [0, 1, 2, 3].map(|n| pool.words[mark_at(n, 2)]));
    assert_eq!(bits(&pool), (4, [2, 1, 1, 1]));
    pool.expect_store(index, 0, 7, gives(index, 0, 7, 0));
    assert_eq!(bits(&pool), (0, [0, 0, 0, 0]));
}

/// A store that replaces nothing leaves the marks of its neighbours, and one that is refused those
/// of what it would replace.
#[test]
fn mark_2_stays_where_nothing_is_replaced() {
    let mut pool = Pool::fresh(1);
    pool.put(1, 5);
    set_marks(&mut pool, (1, 0, 5), &[2]);
    pool.put(2, 9);
    pool.expect_store(0, 6, 7, only(11));
    pool.expect_store(1, 0, 2, only(6));
    pool.expect_store(1, 1, 9, only(14));
    let mut named = vec![(1, node_word(0)), (2, 4), (mark_at(0, 2), 2)];
    named.extend(node(0, 0, 0, &[(1, 5), (2, 9)]));
    pool.assert_words(&named);
}

/// What was stored can be marked again, and that is then seen by a find.
#[test]
fn mark_2_can_be_set_again() {
    let mut pool = case_3(3);
    set_marks(&mut pool, (64, 0, 5), &[2]);
    pool.expect_store(64, 0, 5, gives(64, 0, 5, 0));
    // Two slots of the head without the mark, and 62 empty ones; then past its block.
    pool.expect_find(0, 2, 99, counting(only(12), 65));
    pool.expect_mark(64, 2, gives(64, 0, 5, 4));
    pool.expect_find(0, 2, 99, counting(gives(64, 0, 5, 4), 2));
}
