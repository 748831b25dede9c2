//! The listing (request P1): which entries, their bytes, the answers in their order.

use crate::helpers::*;
use reference::calls::{list, Outcome};

/// Base, order, word and marks of an entry that is to be listed.
type Listed = (u64, u8, u64, u8);

/// 21 bytes an entry: tag 32, length 18, base, order, word, marks.
fn bytes(entries: &[Listed]) -> Vec<u8> {
    let one = |(base, order, word, marks): &Listed| {
        record(32, 18, &[&base.to_be_bytes(), &[*order], &word.to_be_bytes(), &[*marks]])
    };
    entries.iter().flat_map(one).collect()
}

/// Lists into a buffer of so many bytes; nothing but these bytes at its start may be written.
fn lists_into(words: &[u64], first: u64, last: u64, buffer: usize, wanted: &[u8]) -> Outcome {
    let mut found = vec![UNTOUCHED; buffer];
    let outcome = list(words, first, last, &mut found);
    let mut expected = wanted.to_vec();
    expected.resize(buffer, UNTOUCHED);
    assert_eq!(found, expected, "{first} to {last}, {buffer} bytes");
    outcome
}

impl Pool {
    /// These entries and no others, with a buffer that is exact or longer; one that is shorter is
    /// answer 4.
    fn expect_listing(&self, first: u64, last: u64, entries: &[Listed]) {
        let (wanted, count) = (bytes(entries), entries.len() as u64);
        for more in [0, 1, 20, 21, 100] {
            let done = lists_into(&self.words, first, last, wanted.len() + more, &wanted);
            assert_eq!(done, outcome(0, count), "{first} to {last}, {more} bytes more");
        }
        for less in [1, 20, 21, wanted.len()].into_iter().filter(|less| *less <= wanted.len()) {
            if less > 0 {
                let short = lists_into(&self.words, first, last, wanted.len() - less, &[]);
                assert_eq!(short, outcome(4, count), "{first} to {last}, {less} bytes less");
            }
        }
    }
}

/// Base 64 is 0x40, and marks 0 and 2 are 1 + 4.
#[test]
fn the_bytes_of_two_entries() {
    let mut pool = case_3(3);
    pool.expect_mark(64, 0, gives(64, 0, 5, 1));
    pool.expect_mark(64, 2, gives(64, 0, 5, 5));
    let first = hex("20 0012 0000000000000000 00 0000000000000003 00");
    let second = hex("20 0012 0000000000000040 00 0000000000000005 05");
    assert_eq!((first.len(), second.len()), (21, 21));
    let both = [first, second].concat();
    assert_eq!(lists_into(&pool.words, 0, LAST, 42, &both), outcome(0, 2));
    assert_eq!(bytes(&[(0, 0, 3, 0), (64, 0, 5, 5)]), both);
}

/// Every byte of each number, the highest first, and an order that is not 0.
#[test]
fn the_bytes_of_a_wide_entry() {
    let mut pool = Pool::fresh(11);
    let (base, word) = (0x0102_0304_0506_0780, 0xF1E2_D3C4_B5A6_9788);
    pool.expect_store(base, 7, word, gives(base, 7, word, 0));
    let wanted = hex("20 0012 0102030405060780 07 F1E2D3C4B5A69788 00");
    assert_eq!(lists_into(&pool.words, base + 127, LAST, 21, &wanted), outcome(0, 1));
    assert_eq!(lists_into(&pool.words, 0, base, 21, &wanted), outcome(0, 1));
    assert_eq!(lists_into(&pool.words, base + 128, LAST, 21, &[]), outcome(0, 0));
    assert_eq!(lists_into(&pool.words, 0, base - 1, 21, &[]), outcome(0, 0));
}

/// Order 3 at 8 covers 8 to 15; the one listing of it has base 8, wherever the range cuts it.
#[test]
fn an_entry_that_the_range_cuts() {
    let mut pool = Pool::fresh(1);
    pool.expect_store(8, 3, 7, gives(8, 3, 7, 0));
    let entry = [(8, 3, 7, 0)];
    for (first, last) in [(8, 15), (0, 63), (0, 8), (15, LAST), (9, 9), (13, 14), (8, 8), (15, 15)]
    {
        pool.expect_listing(first, last, &entry);
    }
    for (first, last) in [(0, 7), (16, 16), (16, LAST), (0, 0)] {
        pool.expect_listing(first, last, &[]);
    }
}

/// Entries of one, of several and of other nodes: each once, in index order.
#[test]
fn entries_in_index_order() {
    let mut pool = case_3(5);
    pool.expect_store(4, 2, 9, gives(4, 2, 9, 0));
    pool.expect_store(128, 6, 11, gives(128, 6, 11, 0));
    pool.put(4095, 13);
    pool.put(1, 15);
    pool.expect_mark(4095, 1, gives(4095, 0, 13, 2));
    let all = [
        (0, 0, 3, 0),
        (1, 0, 15, 0),
        (4, 2, 9, 0),
        (64, 0, 5, 0),
        (128, 6, 11, 0),
        (4095, 0, 13, 2),
    ];
    pool.expect_listing(0, LAST, &all);
    pool.expect_listing(0, 4095, &all);
    pool.expect_listing(1, 4094, &all[1..5]);
    pool.expect_listing(7, 128, &all[2..5]);
    pool.expect_listing(8, 127, &all[3..4]);
    pool.expect_listing(2, 3, &[]);
    pool.expect_listing(191, 4095, &all[4..]);
    pool.expect_listing(192, 4094, &[]);
    pool.expect_listing(4096, LAST, &[]);
}

#[test]
fn an_empty_pool_and_an_entry_as_head() {
    let pool = Pool::fresh(1);
    pool.expect_listing(0, LAST, &[]);
    pool.expect_listing(0, 0, &[]);
    pool.expect_listing(LAST, LAST, &[]);
    let mut pool = case_2(1);
    pool.expect_mark(0, 1, gives(0, 0, 3, 2));
    pool.expect_listing(0, 0, &[(0, 0, 3, 2)]);
    pool.expect_listing(0, LAST, &[(0, 0, 3, 2)]);
    pool.expect_listing(1, 1, &[]);
    pool.expect_listing(1, LAST, &[]);
}

/// Two entries of order 63 cover every index; a single last index lies at 2^64 - 1.
#[test]
fn the_widest_entries_and_the_last_index() {
    let mut pool = Pool::fresh(1);
    let middle = 1 << 63;
    pool.expect_store(0, 63, 7, gives(0, 63, 7, 0));
    pool.expect_store(middle, 63, 9, gives(middle, 63, 9, 0));
    let (low, high) = ((0, 63, 7, 0), (middle, 63, 9, 0));
    pool.expect_listing(0, LAST, &[low, high]);
    pool.expect_listing(middle - 1, middle, &[low, high]);
    pool.expect_listing(middle - 1, middle - 1, &[low]);
    pool.expect_listing(0, 0, &[low]);
    pool.expect_listing(middle, middle, &[high]);
    pool.expect_listing(LAST, LAST, &[high]);

    let mut pool = Pool::fresh(11);
    pool.put(LAST, 7);
    pool.expect_listing(LAST, LAST, &[(LAST, 0, 7, 0)]);
    pool.expect_listing(0, LAST, &[(LAST, 0, 7, 0)]);
    pool.expect_listing(0, LAST - 1, &[]);
}

#[test]
fn the_number_of_the_nodes_does_not_matter() {
    let mut named = vec![(1, node_word(4))];
    named.extend(node(4, 6, 0, &[(0, node_word(3)), (1, node_word(1))]));
    named.extend(node(3, 0, 1 + 64 * 4, &[(0, 3)]));
    named.extend(node(1, 0, 1 + 64 * 4 + 1, &[(0, 5)]));
    let pool = Pool { words: words_with(5, &named) };
    pool.expect_listing(0, LAST, &[(0, 0, 3, 0), (64, 0, 5, 0)]);
}

/// 1, then 2, then 8, then 4, each with number 0 but for the last, and no byte is written.
#[test]
fn refusals_in_their_order() {
    let refused = |words: &[u64], first, last, buffer, answer, number| {
        let found = lists_into(words, first, last, buffer, &[]);
        assert_eq!(found, outcome(answer, number), "{} words, {first} to {last}", words.len());
    };
    let pool = case_3(3);
    for (first, last) in [(0, LAST), (1, 0), (LAST, 0), (LAST, LAST - 1)] {
        for buffer in [0, 21, 42] {
            refused(&[0; 73], first, last, buffer, 1, 0);
            refused(&[JUNK; 75], first, last, buffer, 1, 0);
            refused(&[], first, last, buffer, 1, 0);
            refused(&[JUNK; 74], first, last, buffer, 2, 0);
            refused(&[0; 74], first, last, buffer, 2, 0);
            if first > last {
                refused(&pool.words, first, last, buffer, 8, 0);
            }
        }
    }
    refused(&pool.words, 65, 64, 100, 8, 0);
    refused(&pool.words, 0, 64, 41, 4, 2);
    refused(&pool.words, 64, 64, 0, 4, 1);
}
