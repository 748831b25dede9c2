//! Cases 1 to 15 (R106 to R120, and by request P4), with every figure they name and whole pools of
//! words.

use crate::helpers::*;
use reference::batch::Command;
use reference::calls::{check, init, run};

#[test]
fn case_01_load_from_a_fresh_pool() {
    let mut pool = Pool::fresh(1);
    pool.expect_load(0, counting(only(10), 0));
    pool.assert_words(&[]);
}

#[test]
fn case_02_an_entry_as_head() {
    let mut pool = Pool::fresh(1);
    assert_eq!(pool.needed(0, 0), 0);
    pool.expect_store(0, 0, 3, gives(0, 0, 3, 0));
    pool.assert_words(&[(1, 3)]);
    pool.expect_load(0, counting(gives(0, 0, 3, 0), 0));
}

/// The words of case 3: head node 0 of shift 6, nodes 1 and 2 of shift 0 below its slots 0 and 1.
fn case_3_words() -> Vec<(usize, u64)> {
    let mut named = vec![(1, 4098)];
    named.extend(node(0, 6, 0, &[(0, 4102), (1, 4106)]));
    named.extend(node(1, 0, 1, &[(0, 3)]));
    named.extend(node(2, 0, 2, &[(0, 5)]));
    named
}

#[test]
fn case_03_needs_three_and_two_are_too_few() {
    let mut pool = case_2(2);
    assert_eq!(pool.needed(64, 0), 3);
    pool.expect_store(64, 0, 5, only(11));
    pool.assert_words(&[(1, 3)]);
}

#[test]
fn case_03_needs_three_and_three_are_enough() {
    let mut pool = case_2(3);
    assert_eq!(pool.needed(64, 0), 3);
    pool.expect_store(64, 0, 5, gives(64, 0, 5, 0));
    pool.assert_words(&case_3_words());
}

#[test]
fn case_04_store_4096_needs_three() {
    let mut pool = case_3(5);
    assert_eq!(pool.needed(4096, 0), 3);
    pool.expect_store(4096, 0, 7, only(11));
    pool.assert_words(&case_3_words());

    let mut pool = case_3(6);
    pool.put(4096, 7);
    let mut named = vec![(1, node_word(3))];
    named.extend(node(0, 6, 1 + 64 * 3, &[(0, node_word(1)), (1, node_word(2))]));
    named.extend(node(1, 0, 1, &[(0, 3)]));
    named.extend(node(2, 0, 2, &[(0, 5)]));
    named.extend(node(3, 12, 0, &[(0, node_word(0)), (1, node_word(4))]));
    named.extend(node(4, 6, 1 + 64 * 3 + 1, &[(0, node_word(5))]));
    named.extend(node(5, 0, 1 + 64 * 4, &[(0, 7)]));
    pool.assert_words(&named);
}

#[test]
fn case_04_store_4095_needs_one() {
    let mut pool = case_3(3);
    assert_eq!(pool.needed(4095, 0), 1);
    pool.expect_store(4095, 0, 7, only(11));
    pool.assert_words(&case_3_words());

    let mut pool = case_3(4);
    pool.put(4095, 7);
    let mut named = case_3_words();
    named.push((slot_at(0, 63), node_word(3)));
    named.extend(node(3, 0, 1 + 63, &[(63, 7)]));
    pool.assert_words(&named);
}

/// Node 0 of shift 60 leads by slot 15, each further one by slot 63, to the last index.
#[test]
fn case_05_the_last_index_needs_eleven() {
    let mut pool = Pool::fresh(10);
    assert_eq!(pool.needed(LAST, 0), 11);
    pool.expect_store(LAST, 0, 7, only(11));
    pool.assert_words(&[]);

    let mut pool = Pool::fresh(11);
    pool.put(LAST, 7);
    let mut named = vec![(1, node_word(0))];
    named.extend(node(0, 60, 0, &[(15, node_word(1))]));
    named.extend(node(1, 54, 1 + 15, &[(63, node_word(2))]));
    for number in 2..10 {
        let owner = 1 + 64 * (number as u64 - 1) + 63;
        named.extend(node(number, 60 - 6 * number as u64, owner, &[(63, node_word(number + 1))]));
    }
    named.extend(node(10, 0, 1 + 64 * 9 + 63, &[(63, 7)]));
    pool.assert_words(&named);
    pool.expect_load(LAST, counting(gives(LAST, 0, 7, 0), 11));
}

/// Of each shift below 60 the node of block 0 comes first, then that of the last block: numbers
/// 2k - 1 and 2k for shift 60 - 6k.
#[test]
fn case_06_after_case_2_the_last_index_needs_21() {
    let mut pool = case_2(20);
    assert_eq!(pool.needed(LAST, 0), 21);
    pool.expect_store(LAST, 0, 7, only(11));
    pool.assert_words(&[(1, 3)]);

    let mut pool = case_2(21);
    pool.put(LAST, 7);
    let mut named = vec![(1, node_word(0))];
    named.extend(node(0, 60, 0, &[(0, node_word(1)), (15, node_word(2))]));
    named.extend(node(1, 54, 1, &[(0, node_word(3))]));
    named.extend(node(2, 54, 1 + 15, &[(63, node_word(4))]));
    for tier in 2..10 {
        let shift = 60 - 6 * tier as u64;
        let (low, high) = (2 * tier - 1, 2 * tier);
        let owner = 1 + 64 * (low as u64 - 2);
        named.extend(node(low, shift, owner, &[(0, node_word(low + 2))]));
        let owner = 1 + 64 * (high as u64 - 2) + 63;
        named.extend(node(high, shift, owner, &[(63, node_word(high + 2))]));
    }
    named.extend(node(19, 0, 1 + 64 * 17, &[(0, 3)]));
    named.extend(node(20, 0, 1 + 64 * 18 + 63, &[(63, 7)]));
    pool.assert_words(&named);
}

#[test]
fn case_07_order_6_at_0_is_one_node_of_shift_6() {
    let mut pool = Pool::fresh(2);
    assert_eq!(pool.needed(0, 6), 1);
    pool.expect_store(0, 6, 7, gives(0, 6, 7, 0));
    let mut named = vec![(1, node_word(0))];
    named.extend(node(0, 6, 0, &[(0, 7)]));
    pool.assert_words(&named);
    pool.expect_load(63, counting(gives(0, 6, 7, 0), 1));
    pool.expect_load(64, counting(only(10), 1));
}

fn case_8(count: usize) -> Pool {
    let mut pool = Pool::fresh(count);
    pool.expect_store(8, 3, 7, gives(8, 3, 7, 0));
    pool
}

fn case_8_words(word: u64) -> Vec<(usize, u64)> {
    let mut named = vec![(1, node_word(0))];
    named.extend(node(0, 0, 0, &[(8, word)]));
    named.extend((9..=15).map(|slot| (slot_at(0, slot), 34)));
    named
}

#[test]
fn case_08_order_3_at_8() {
    let pool = case_8(1);
    pool.assert_words(&case_8_words(7));
}

/// Before case 8 and after it: order 3 at 13 is answer 14 and leaves every word.
#[test]
fn case_08_order_3_at_13_is_refused() {
    let mut pool = Pool::fresh(1);
    pool.expect_store(13, 3, 7, only(14));
    pool.assert_words(&[]);
    let mut pool = case_8(1);
    pool.expect_store(13, 3, 9, only(14));
    pool.assert_words(&case_8_words(7));
}

#[test]
fn case_09_a_store_into_a_larger_entry_then_erase() {
    let mut pool = case_8(1);
    assert_eq!(pool.needed(10, 0), 0);
    pool.expect_store(10, 0, 9, gives(8, 3, 9, 0));
    pool.assert_words(&case_8_words(9));
    pool.expect_load(15, counting(gives(8, 3, 9, 0), 1));
    pool.expect_erase(11, gives(8, 3, 9, 0));
    pool.assert_words(&[]);
}

#[test]
fn case_10_marks_of_replaced_entries_are_kept() {
    let mut pool = Pool::fresh(2);
    pool.put(64, 5);
    pool.put(65, 7);
    pool.expect_mark(64, 0, gives(64, 0, 5, 1));
    pool.expect_mark(65, 1, gives(65, 0, 7, 2));
    assert_eq!(pool.words[at(1, 0)], 1);
    assert_eq!(pool.needed(64, 6), 0);
    pool.expect_store(64, 6, 9, gives(64, 6, 9, 3));
    let mut named = vec![(1, node_word(0)), (2, 3), (mark_at(0, 0), 2), (mark_at(0, 1), 2)];
    named.extend(node(0, 6, 0, &[(1, 9)]));
    pool.assert_words(&named);
}

#[test]
fn case_11_after_case_3_erase_64_is_as_case_2() {
    let mut pool = case_3(3);
    pool.expect_erase(64, gives(64, 0, 5, 0));
    pool.assert_words(&[(1, 3)]);
}

#[test]
fn case_12_order_63_at_the_middle() {
    let mut pool = Pool::fresh(1);
    assert_eq!(pool.needed(1 << 63, 63), 1);
    pool.expect_store(1 << 63, 63, 7, gives(1 << 63, 63, 7, 0));
    let mut named = vec![(1, node_word(0))];
    named.extend(node(0, 60, 0, &[(8, 7)]));
    named.extend((9..=15).map(|slot| (slot_at(0, slot), 34)));
    pool.assert_words(&named);
    pool.expect_store(1 << 63, 64, 7, only(5));
    pool.assert_words(&named);
}

#[test]
fn case_13_find_after_case_3() {
    let mut pool = case_3(3);
    pool.expect_find(1, 3, 64, counting(gives(64, 0, 5, 0), 64));
    pool.expect_find(1, 3, LAST as u16, counting(gives(64, 0, 5, 0), 64));
    pool.expect_find(1, 3, 63, Said { answer: 13, index: 64, count: 63, ..Said::default() });
    pool.expect_mark(64, 0, gives(64, 0, 5, 1));
    pool.expect_find(1, 0, 63, counting(gives(64, 0, 5, 1), 2));
}

#[test]
fn case_14_bytes_of_a_store_and_of_a_reply() {
    let store = hex("01 0011 0000000000000040 00 0000000000000005");
    let reply = hex("82 0015 00 0000000000000040 00 0000000000000005 00 0002");
    assert_eq!((store.len(), reply.len()), (20, 24));
    let mut pool = case_2(3);
    pool.run(&store, 1);
    pool.assert_words(&case_3_words());
    assert_eq!(pool.run(&hex("02 0008 0000000000000040"), 1), reply);

    let mut batch = bytes_of(Command::Store { index: 0, order: 0, word: 3 });
    batch.extend(&store);
    batch.extend(hex("02 0008 0000000000000040"));
    let replies = Pool::fresh(3).run(&batch, 3);
    assert_eq!(replies[48..], reply);
}

#[test]
fn case_15_pool_lengths() {
    for (length, count) in [(74, 1), (70_004, 1000), (1_146_884, 16_384)] {
        let mut words = vec![JUNK; length];
        assert_eq!(init(&mut words), outcome(0, 0));
        assert_eq!(words, words_with(count, &[]));
        assert_eq!(check(&words), outcome(0, 0));
        assert_eq!(run(&mut words, &[], &mut []), outcome(0, 0));
    }
    for length in [73, 1_146_954] {
        let mut words = vec![JUNK; length];
        assert_eq!(init(&mut words), outcome(1, 0));
        assert_eq!(check(&words), outcome(1, 0));
        assert_eq!(run(&mut words, &[], &mut []), outcome(1, 0));
        assert_eq!(words, vec![JUNK; length]);
    }
}

/// 2,968 loads of 11 bytes and 10 marks of 12 bytes are 32,768 bytes.
#[test]
fn case_15_batch_lengths() {
    let mut batch = loads_and_marks(2968, 10);
    assert_eq!(batch.len(), 32_768);
    let mut pool = Pool::fresh(1);
    pool.run(&batch, 2978);

    batch.push(2);
    let mut reply = vec![UNTOUCHED; 24 * 2978];
    assert_eq!(run(&mut pool.words, &batch, &mut reply), outcome(3, 32_768));
    assert_eq!(reply, vec![UNTOUCHED; 24 * 2978]);
    pool.assert_words(&[]);
}

/// Too long before request P8: 735 loads and 9 marks.
#[test]
fn a_batch_of_8193_bytes_runs() {
    let batch = loads_and_marks(735, 9);
    assert_eq!(batch.len(), 8193);
    Pool::fresh(1).run(&batch, 744);
}
