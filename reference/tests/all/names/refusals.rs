//! Which answer comes first, and that a refused call writes nothing.

use super::helpers::*;
use reference::names::calls::{check, clear, delete, insert, lookup};

const GOOD: &[u8] = b"a";

/// All five calls answer 1, whatever else is wrong, and write nothing.
fn assert_length_refused(words: &[u64]) {
    let mut pool = words.to_vec();
    for key in [GOOD, b"", &[7; 33]] {
        assert_eq!(lookup(&pool, key), outcome(1, 0));
        assert_eq!(insert(&mut pool, key, 2), outcome(1, 0));
        assert_eq!(insert(&mut pool, key, 3), outcome(1, 0));
        assert_eq!(delete(&mut pool, key), outcome(1, 0));
    }
    assert_eq!(clear(&mut pool), outcome(1, 0));
    assert_eq!(check(&pool), outcome(1, 0));
    assert_eq!(pool, words);
}

#[test]
fn lengths_that_are_no_pools_are_1() {
    for length in [0, 1, 2, 3, 25, 27, 49, 51, 69, 73, 75, 2 + 24 * 16_385, 2 + 24 * 16_384 + 1] {
        let mut words = vec![9; length];
        assert_length_refused(&words);
        // Neither does the number of blocks in word 0 help.
        if let Some(first) = words.first_mut() {
            *first = length as u64 / 24;
            assert_length_refused(&words);
        }
    }
    for count in [1, 2, 16_384] {
        let mut words = vec![0; 2 + 24 * count];
        assert_eq!(check(&words), outcome(2, 0));
        assert_eq!(clear(&mut words), outcome(0, 0));
        assert_eq!(check(&words), outcome(0, 0));
    }
}

#[test]
fn damage_is_2_before_anything_but_1() {
    let mut damaged = sixteen(30).words;
    damaged[at(25, 3)] = 1;
    let mut pool = damaged.clone();
    assert_eq!(check(&pool), outcome(2, 0));
    for key in [&[0x30][..], GOOD, b"", &[7; 33]] {
        assert_eq!(lookup(&pool, key), outcome(2, 0));
        assert_eq!(insert(&mut pool, key, 2), outcome(2, 0));
        assert_eq!(insert(&mut pool, key, 3), outcome(2, 0));
        assert_eq!(delete(&mut pool, key), outcome(2, 0));
    }
    assert_eq!(pool, damaged);
}

/// 16 before 6, 10 and 11, in an empty pool, a full one, and one in between.
#[test]
fn a_key_of_no_byte_or_over_32_is_16() {
    for mut names in [Names::cleared(1), sixteen(17), sixteen(40)] {
        let before = names.words.clone();
        for length in [0, 33, 34, 64, 256, 1000] {
            let key = vec![0x10; length];
            assert_eq!(lookup(&names.words, &key), outcome(16, 0));
            assert_eq!(delete(&mut names.words, &key), outcome(16, 0));
            for object in [0, 2, 3, 4, 1030, u64::MAX] {
                assert_eq!(insert(&mut names.words, &key, object), outcome(16, 0));
            }
        }
        names.assert_words(&before);
    }
}

/// 6 before 11, for a new key and for one that is there.
#[test]
fn an_object_is_an_entrys_word() {
    for mut names in [sixteen(17), sixteen(40)] {
        let before = names.words.clone();
        for key in [&[0x30][..], &[0x31], &[1; 32]] {
            for object in [0, 2, 6, 10, 1030, 4098, u64::MAX - 1, 1 << 63 | 2] {
                assert_eq!(insert(&mut names.words, key, object), outcome(6, 0));
            }
        }
        names.assert_words(&before);
        for object in [1, 3, 4, 5, 7, 8, 1 << 63, u64::MAX, u64::MAX - 3] {
            names.put(&[0x30], object, 0);
        }
    }
}

#[test]
fn a_key_that_is_not_there_is_10() {
    let mut names = sixteen(40);
    let before = names.words.clone();
    for key in [&[0x31][..], &[0x30, 0], &[0; 32], &[0x30, 0x30], &[0xFF]] {
        assert_eq!(lookup(&names.words, key), outcome(10, 0));
        assert_eq!(delete(&mut names.words, key), outcome(10, 0));
    }
    names.assert_words(&before);
    for n in 0..16 {
        assert_eq!(lookup(&names.words, &[16 * n]), outcome(0, 2 * u64::from(n) + 1));
    }
}
