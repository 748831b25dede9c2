//! Refused calls and refused fields: exact answers and places, lowest number first.

use crate::helpers::*;
use reference::batch::Command;
use reference::calls::{check, init, run, Outcome};

/// Runs a batch that must be refused: neither pool nor reply is altered.
fn refused(words: &[u64], batch: &[u8], reply_space: usize) -> Outcome {
    let mut pool = words.to_vec();
    let mut reply = vec![UNTOUCHED; reply_space];
    let outcome = run(&mut pool, batch, &mut reply);
    assert_eq!(pool, words);
    assert_eq!(reply, vec![UNTOUCHED; reply_space]);
    outcome
}

fn load() -> Vec<u8> {
    bytes_of(Command::Load { index: 0 })
}

#[test]
fn pool_lengths() {
    for length in [0, 1, 4, 5, 73, 75, 143, 145, 70_003, 70_005, 1_146_883, 1_146_885, 1_146_954] {
        let words = vec![0; length];
        assert_eq!(init(&mut words.clone()), outcome(1, 0), "length {length}");
        assert_eq!(check(&words), outcome(1, 0), "length {length}");
        assert_eq!(refused(&words, &[9], 0), outcome(1, 0), "length {length}");
    }
    for count in [1, 2, 3, 1000, 1001, 16_383, 16_384] {
        let mut words = vec![JUNK; length_of(count)];
        assert_eq!(init(&mut words), outcome(0, 0));
        assert_eq!(check(&words), outcome(0, 0));
    }
}

#[test]
fn a_wrong_length_comes_before_wrong_words() {
    assert_eq!(check(&[JUNK; 75]), outcome(1, 0));
    assert_eq!(refused(&[JUNK; 75], &[9], 0), outcome(1, 0));
}

#[test]
fn wrong_words_come_before_a_bad_batch() {
    assert_eq!(refused(&[JUNK; 74], &[], 0), outcome(2, 0));
    assert_eq!(refused(&[JUNK; 74], &[9], 0), outcome(2, 0));
    assert_eq!(refused(&[JUNK; 74], &[0; 40_000], 0), outcome(2, 0));
    assert_eq!(refused(&[0; 74], &load(), 0), outcome(2, 0));
}

#[test]
fn an_empty_batch_has_no_replies() {
    let mut pool = case_3(3);
    let before = pool.words.clone();
    assert_eq!(pool.run(&[], 0), []);
    assert_eq!(pool.words, before);
}

#[test]
fn cut_records() {
    let pool = Pool::fresh(1);
    let commands = [
        Command::Store { index: 1, order: 0, word: 3 },
        Command::Load { index: 1 },
        Command::Erase { index: 1 },
        Command::Mark { index: 1, mark: 0 },
        Command::Unmark { index: 1, mark: 0 },
        Command::Find { first: 0, last: 9, filter: 3, budget: 1 },
        Command::Reserve { index: 1 },
    ];
    for command in commands {
        let record = bytes_of(command);
        for cut in 1..record.len() {
            let batch = [&load()[..], &load()[..], &record[..cut]].concat();
            assert_eq!(refused(&pool.words, &batch, 240), outcome(3, 22), "{command:?} {cut}");
        }
        let batch = [&load()[..], &record[..], &[record[0]]].concat();
        let place = 11 + record.len() as u64;
        assert_eq!(refused(&pool.words, &batch, 240), outcome(3, place));
    }
}

#[test]
fn unknown_tags() {
    let pool = Pool::fresh(1);
    for tag in (0..=255).filter(|tag| !(1..=7).contains(tag)) {
        let mut record = load();
        record[0] = tag;
        assert_eq!(refused(&pool.words, &record, 240), outcome(3, 0), "tag {tag}");
        let batch = [load(), record, load()].concat();
        assert_eq!(refused(&pool.words, &batch, 240), outcome(3, 11), "tag {tag}");
    }
}

#[test]
fn wrong_lengths() {
    let pool = Pool::fresh(1);
    for (tag, right) in [(1u8, 17), (2, 8), (3, 8), (4, 9), (5, 9), (6, 19), (7, 8)] {
        for length in (0..600u16).filter(|length| *length != right) {
            let [high, low] = length.to_be_bytes();
            let mut batch = load();
            batch.extend([tag, high, low]);
            batch.resize(batch.len() + length as usize, 0);
            assert_eq!(refused(&pool.words, &batch, 240), outcome(3, 11), "{tag} {length}");
        }
    }
}

#[test]
fn the_first_bad_record_decides() {
    let pool = Pool::fresh(1);
    let batch = [&load()[..], &[7, 0, 0], &[2, 0, 9]].concat();
    assert_eq!(refused(&pool.words, &batch, 0), outcome(3, 11));
}

#[test]
fn too_long_whatever_its_bytes() {
    let pool = Pool::fresh(1);
    for length in [32_769, 32_770, 65_536, 100_000] {
        assert_eq!(refused(&pool.words, &vec![0; length], 0), outcome(3, 32_768));
    }
    for length in [8192, 8193, 32_768] {
        assert_eq!(refused(&pool.words, &vec![0; length], 0), outcome(3, 0));
    }
}

#[test]
fn reply_space() {
    let pool = Pool::fresh(1);
    let batch = load().repeat(5);
    for space in [0, 24, 119] {
        assert_eq!(refused(&pool.words, &batch, space), outcome(4, 5));
    }
    let mut words = pool.words.clone();
    assert_eq!(run(&mut words, &batch, &mut [0; 120]), outcome(0, 5));
    let bad_end = [batch, vec![2]].concat();
    assert_eq!(refused(&pool.words, &bad_end, 0), outcome(3, 55));
}

#[test]
fn store_fields_lowest_number_first() {
    let mut pool = Pool::fresh(1);
    for order in [64, 65, 128, 255] {
        pool.expect_store(0, order, 3, only(5));
        pool.expect_store(0, order, 2, only(5));
    }
    for word in [0, 2, 6, 1030, 4098, LAST - 1] {
        pool.expect_store(LAST, 0, word, only(6));
        pool.expect_store(0, 63, word, only(6));
    }
    pool.expect_store(LAST, 0, 1, only(11));
    pool.assert_words(&[]);
    for word in [1, 3, 4, 8, LAST, LAST - 3, 1 << 63] {
        pool.expect_store(0, 0, word, gives(0, 0, word, 0));
    }
}

/// 5, then 14, then 6 (request P4).
#[test]
fn an_unaligned_store_is_told_after_its_order_and_before_its_word() {
    let mut pool = Pool::fresh(1);
    pool.expect_store(13, 64, 0, only(5));
    pool.expect_store(13, 3, 0, only(14));
    pool.expect_store(8, 3, 0, only(6));
    pool.expect_store(13, 64, 7, only(5));
    pool.expect_store(13, 3, 7, only(14));
    pool.expect_store(13, 3, 2, only(14));
    pool.assert_words(&[]);
}

/// For every order: multiples of 2^order are let through, what is beside one or half way to the next
/// is not. The word is none of an entry, so that what is let through is answer 6.
#[test]
fn what_is_aligned_for_each_order() {
    let mut pool = Pool::fresh(1);
    let mut answer = |index, order| {
        let batch = bytes_of(Command::Store { index, order, word: 2 });
        pool.run(&batch, 1)[3]
    };
    for order in 0..=63 {
        let width = 1u64 << order;
        for index in [0, width, 1 << 63, width.wrapping_neg()] {
            assert_eq!(answer(index, order), 6, "{index} {order}");
        }
        for index in [1, width + 1, width - 1, width / 2, LAST, width + width / 2] {
            let wanted = if order == 0 { 6 } else { 14 };
            assert_eq!(answer(index, order), wanted, "{index} {order}");
        }
    }
}

/// Neither an entry that covers the index, of that order or a larger one, nor too few nodes change
/// the answer.
#[test]
fn an_unaligned_store_into_entries_and_with_too_few_nodes() {
    let mut pool = Pool::fresh(1);
    pool.expect_store(8, 3, 7, gives(8, 3, 7, 0));
    let before = pool.words.clone();
    for (index, order) in [(9, 1), (10, 2), (12, 3), (15, 3), (8, 4), (9, 4), (LAST, 1)] {
        pool.expect_store(index, order, 9, only(14));
    }
    assert_eq!(pool.words, before);
    pool.expect_store(10, 1, 9, gives(8, 3, 9, 0));
    pool.expect_store(LAST, 0, 9, only(11));
}

#[test]
fn mark_fields_lowest_number_first() {
    let mut pool = case_2(1);
    for mark in [3, 4, 128, 255] {
        pool.expect_mark(0, mark, only(7));
        pool.expect_unmark(0, mark, only(7));
        pool.expect_mark(5, mark, only(7));
        pool.expect_unmark(5, mark, only(7));
    }
    pool.expect_mark(5, 2, only(10));
    pool.expect_unmark(5, 2, only(10));
    pool.expect_erase(5, only(10));
    pool.assert_words(&[(1, 3)]);
}

#[test]
fn find_fields_lowest_number_first() {
    let mut pool = case_2(1);
    let mut expect = |first, last, filter, budget, answer| {
        pool.expect(Command::Find { first, last, filter, budget }, only(answer));
    };
    expect(1, 0, 4, 0, 7);
    expect(0, 0, 255, 1, 7);
    expect(1, 0, 3, 0, 8);
    expect(LAST, LAST - 1, 0, 1, 8);
    expect(0, 0, 3, 0, 9);
}

#[test]
fn marking_twice_and_unmarking_twice_are_done() {
    let mut pool = case_2(1);
    pool.expect_unmark(0, 1, gives(0, 0, 3, 0));
    pool.expect_mark(0, 1, gives(0, 0, 3, 2));
    pool.expect_mark(0, 1, gives(0, 0, 3, 2));
    pool.assert_words(&[(1, 3), (2, 2)]);
    pool.expect_erase(0, gives(0, 0, 3, 2));
    pool.assert_words(&[]);
}

#[test]
fn a_refused_command_does_not_stop_the_next() {
    let commands = [
        Command::Store { index: 0, order: 64, word: 3 },
        Command::Store { index: 0, order: 0, word: 3 },
        Command::Load { index: 1 },
        Command::Load { index: 0 },
    ];
    let mut pool = Pool::fresh(1);
    let replies = pool.run(&batch_of(&commands), 4);
    let said = [only(5), gives(0, 0, 3, 0), only(10), gives(0, 0, 3, 0)];
    let tags = [1, 1, 2, 2];
    let expected: Vec<u8> = said.iter().zip(tags).flat_map(|(s, tag)| s.bytes(tag)).collect();
    assert_eq!(replies, expected);
    pool.assert_words(&[(1, 3)]);
}
