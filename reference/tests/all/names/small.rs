//! No key, one, two, sixteen; seventeen that a node of 16 slots tells apart; words in full.

use super::helpers::*;
use reference::names::calls::{check, clear, delete, insert, lookup};
use reference::names::keys::Key;

/// The length, the bytes, zeros: 66 nibbles.
#[test]
fn a_key_is_a_number() {
    let nibbles = |bytes: &[u8]| -> String {
        let key = Key::new(bytes).expect("a key");
        assert_eq!(key.bytes(), bytes);
        assert_eq!(Key::from_number(*key.nibbles()), Some(key));
        key.nibbles().iter().map(|nibble| format!("{nibble:x}")).collect()
    };
    assert_eq!(nibbles(b"a"), format!("0161{}", "0".repeat(62)));
    assert_eq!(nibbles(&[0]), format!("01{}", "0".repeat(64)));
    assert_eq!(nibbles(&[0, 0]), format!("02{}", "0".repeat(64)));
    assert_eq!(nibbles(&[0xAB; 16]), format!("10{}{}", "ab".repeat(16), "0".repeat(32)));
    assert_eq!(nibbles(&[255; 32]), format!("20{}", "f".repeat(64)));
    assert_eq!(Key::new(&[]), None);
    assert_eq!(Key::new(&[1; 33]), None);
}

/// Shorter keys come before longer ones, whatever their bytes.
#[test]
fn keys_are_ordered_by_length_first() {
    let keys: [&[u8]; 6] = [&[0], &[255], &[0, 0], &[0, 1], &[1, 0], &[0; 32]];
    let keys = keys.map(|bytes| Key::new(bytes).expect("a key"));
    assert!(keys.is_sorted_by(|one, other| one < other));
}

#[test]
fn a_number_that_is_no_key() {
    let number = |text: &str| -> [u8; 66] {
        let digits = format!("{text:0<66}");
        let nibbles: Vec<u8> = digits.chars().map(|c| c.to_digit(16).unwrap() as u8).collect();
        nibbles.try_into().expect("66")
    };
    assert!(Key::from_number(number("01ff")).is_some());
    for text in
        ["", "00", "0001", "01ff01", "01ff001", "21", "ff", "0200001", &format!("1f{:064x}", 1)]
    {
        assert_eq!(Key::from_number(number(text)), None, "{text}");
    }
}

/// Clear leaves N and zeros, in the smallest pool and in the largest.
#[test]
fn no_keys() {
    for count in [1, 2, 16_384] {
        let names = Names::cleared(count);
        let mut expected = vec![0; 2 + 24 * count];
        expected[0] = count as u64;
        names.assert_words(&expected);
        assert_eq!(check(&names.words), outcome(0, 0));
        assert_eq!(lookup(&names.words, b"a"), outcome(10, 0));
    }
}

#[test]
fn one_key_takes_two_blocks() {
    let mut names = Names::cleared(2);
    names.put(b"a", 5, 2);
    #[rustfmt::skip]
    assert_eq!(names.words, [
        2, 1,
        67, 0, 1, 0, 0, 0, 0, 0, 2, 0, 0, 0, 0, 0, 0, 0, 0, 0, 0, 0, 0, 0, 0, 0,
        1, 0, 5, 0, 0, 0, 0x6100_0000_0000_0000, 1, 0, 0, 0, 0, 0, 0, 0, 0, 0, 0, 0, 0, 0, 0, 0, 0,
    ]);
    names.take(b"a", 5, 0);
    names.assert_words(&words(2, None, &[]));
}

#[test]
fn one_block_is_too_few_for_a_key() {
    let mut names = Names::cleared(1);
    names.short_insert(b"a", 2);
    names.assert_words(&words(1, None, &[]));
}

/// Each byte of the longest key in its place of the base.
#[test]
fn a_key_of_32_bytes() {
    let key: Vec<u8> = (1..=32).collect();
    let mut names = Names::cleared(2);
    names.put(&key, 4, 2);
    assert_eq!(
        names.words[at(1, 0)..at(1, 8)],
        [
            1,
            0,
            4,
            0x191A_1B1C_1D1E_1F20,
            0x1112_1314_1516_1718,
            0x090A_0B0C_0D0E_0F10,
            0x0102_0304_0506_0708,
            32
        ]
    );
}

/// The second key comes before the first, and takes slot 0 from it; the leaves keep their numbers.
#[test]
fn two_keys_are_packed_in_order() {
    let mut names = Names::cleared(3);
    names.put(b"b", 5, 2);
    names.put(b"a", 8, 1);
    let two = [node(0, "", 2, &[(0, 2), (1, 1)]), leaf(1, "0162", 5), leaf(2, "0161", 8)];
    names.assert_words(&words(3, Some(0), &two));
    names.short_insert(b"c", 1);
    names.take(b"b", 5, 0);
    names.assert_words(&words(3, Some(0), &[node(0, "", 1, &[(0, 2)]), leaf(2, "0161", 8)]));
    names.put(b"aa", 7, 1);
    let two = [node(0, "", 2, &[(0, 2), (1, 1)]), leaf(2, "0161", 8), leaf(1, "026161", 7)];
    names.assert_words(&words(3, Some(0), &two));
}

/// A replace writes the object and nothing else, and is never short.
#[test]
fn a_replace_needs_no_block() {
    let mut names = Names::cleared(3);
    names.put(b"b", 5, 2);
    names.put(b"a", 8, 1);
    let mut expected = names.words.clone();
    for object in [1, 4, u64::MAX, 1 << 63, 12] {
        names.put(b"b", object, 0);
        expected[at(1, 2)] = object;
        names.assert_words(&expected);
    }
}

#[test]
fn sixteen_keys_are_packed_in_the_root() {
    let mut names = sixteen(17);
    let mut blocks = sixteen_leaves();
    blocks.push(node(0, "", 16, &packed(1..17)));
    names.assert_words(&words(17, Some(0), &blocks));
    names.short_insert(&[1], 4);
    names.short_insert(&[0; 16], 2);
    names.put(&[0x30], 9, 0);
}

/// A key of 16 bytes: the root tells its length byte 0x10 from 0x01. Its slot 0 leads to a node with the 16 others.
#[test]
fn seventeen_keys_with_two_filled_slots() {
    let other = [0xAA; 16];
    let mut names = sixteen(18);
    names.short_insert(&other, 2);
    let mut names = sixteen(19);
    names.put(&other, 6 * 4, 2);
    let mut blocks = sixteen_leaves();
    blocks.push(node(0, "", 17, &[(0, 17), (1, 18)]));
    blocks.push(node(17, "0", 16, &packed(1..17)));
    blocks.push(leaf(18, &format!("10{}", "aa".repeat(16)), 24));
    names.assert_words(&words(19, Some(0), &blocks));

    // Back to 16: node 17 goes, and node 0 holds them all again.
    names.take(&[0x50], 11, 0);
    let mut blocks = sixteen_leaves();
    blocks.remove(5);
    blocks.push(node(0, "", 16, &packed((1..17).filter(|n| *n != 6).chain([18]))));
    blocks.push(leaf(18, &format!("10{}", "aa".repeat(16)), 24));
    names.assert_words(&words(19, Some(0), &blocks));

    // The numbers given up are free from the next call on, the lowest first: 6 and 17.
    names.put(&[0x50], 13, 2);
    let mut blocks = sixteen_leaves();
    blocks.remove(5);
    blocks.push(node(0, "", 17, &[(0, 6), (1, 18)]));
    blocks.push(node(
        6,
        "0",
        16,
        &packed([1, 2, 3, 4, 5, 17, 7, 8, 9, 10, 11, 12, 13, 14, 15, 16]),
    ));
    blocks.push(leaf(17, "0150", 13));
    blocks.push(leaf(18, &format!("10{}", "aa".repeat(16)), 24));
    names.assert_words(&words(19, Some(0), &blocks));
}

/// All three slots that a length byte can lead to, two of them to one key: they are leaves in their nibble's slot.
#[test]
fn a_slot_with_one_key_is_a_leaf() {
    let mut names = sixteen(22);
    names.put(&[9; 32], 41, 2);
    names.put(&[8; 31], 43, 1);
    let mut blocks = sixteen_leaves();
    blocks.push(node(0, "", 18, &[(0, 17), (1, 19), (2, 18)]));
    blocks.push(node(17, "0", 16, &packed(1..17)));
    blocks.push(leaf(18, &format!("20{}", "09".repeat(32)), 41));
    blocks.push(leaf(19, &format!("1f{}", "08".repeat(31)), 43));
    names.assert_words(&words(22, Some(0), &blocks));

    // A second key there: a node over the two, and the old leaf keeps its number.
    names.put(&[8; 30], 45, 2);
    blocks[16] = node(0, "", 19, &[(0, 17), (1, 20), (2, 18)]);
    blocks.push(node(20, "1", 2, &[(0, 21), (1, 19)]));
    blocks.push(leaf(21, &format!("1e{}", "08".repeat(30)), 45));
    names.assert_words(&words(22, Some(0), &blocks));
    names.short_insert(&[8; 29], 1);

    // With one of them gone the node goes too, and the other is a leaf of the root.
    names.take(&[8; 31], 43, 0);
    blocks[16] = node(0, "", 18, &[(0, 17), (1, 21), (2, 18)]);
    blocks.remove(20);
    blocks.remove(19);
    names.assert_words(&words(22, Some(0), &blocks));
}

/// Cleared whatever stood there.
#[test]
fn clear_blanks_every_word() {
    let mut names = sixteen(20);
    assert_eq!(clear(&mut names.words), outcome(0, 0));
    names.assert_words(&words(20, None, &[]));
    let mut junk = vec![u64::MAX; 2 + 24 * 20];
    assert_eq!(clear(&mut junk), outcome(0, 0));
    assert_eq!(junk, names.words);
}

#[test]
fn a_key_and_its_beginnings_are_different_keys() {
    let mut names = Names::cleared(40);
    let all = [7; 32];
    for length in 1..=32 {
        assert_eq!(
            insert(&mut names.words, &all[..length], 4 * length as u64),
            outcome(0, 4 * length as u64)
        );
    }
    for length in 1..=32 {
        assert_eq!(lookup(&names.words, &all[..length]), outcome(0, 4 * length as u64));
    }
    for length in (1..=32).rev() {
        assert_eq!(delete(&mut names.words, &all[..length]), outcome(0, 4 * length as u64));
    }
    names.assert_words(&words(40, None, &[]));
}
