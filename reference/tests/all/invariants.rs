//! What any tree of this kind must keep, read off the raw words without the library.

use crate::helpers::{at, count_at, filled, length_of, mark_at, node_word, slot_at};

/// The word of a reservation.
const RESERVED: u64 = 1030;

fn is_node_word(word: u64) -> bool {
    word % 4 == 2 && word / 4 >= 1024
}

fn is_sibling_word(word: u64) -> bool {
    word % 4 == 2 && word / 4 < 64
}

pub fn assert_invariants(words: &[u64]) {
    let count = words[0] as usize;
    assert_eq!(words.len(), length_of(count));
    assert!(words[2] < 8 && words[3] == 0);
    for number in 0..count {
        if words[at(number, 0)] == 0 {
            assert!(words[at(number, 0)..at(number + 1, 0)].iter().all(|word| *word == 0));
        } else {
            assert_owner(words, number);
            assert_slots(words, number);
        }
    }
    assert!(words[1] != RESERVED || words[2..].iter().all(|word| *word == 0));
    if is_node_word(words[1]) {
        assert_head_node(words, (words[1] / 4 - 1024) as usize);
    }
}

/// A node's owner leads back to it, one shift up, with the marks that it has in any slot.
fn assert_owner(words: &[u64], number: usize) {
    let owner = words[at(number, 1)];
    if owner == 0 {
        assert_eq!(words[1], node_word(number));
        return;
    }
    let (parent, slot) = ((owner - 1) / 64, (owner - 1) % 64);
    let (parent, slot) = (parent as usize, slot as usize);
    assert_eq!(words[slot_at(parent, slot)], node_word(number));
    assert_eq!(words[at(parent, 0)], words[at(number, 0)] + 6);
    for mark in 0..3 {
        let above = words[mark_at(parent, mark)] >> slot & 1;
        assert_eq!(above == 1, words[mark_at(number, mark)] != 0);
    }
}

/// No node is empty, and its count is that of its filled slots; siblings point at an entry below them; only entries and nodes have marks.
fn assert_slots(words: &[u64], number: usize) {
    let slots = &words[slot_at(number, 0)..slot_at(number, 64)];
    assert!(slots.iter().any(|word| *word != 0));
    assert_eq!(words[count_at(number)], filled(words, number));
    for (slot, word) in slots.iter().enumerate() {
        if is_sibling_word(*word) {
            let first = (*word / 4) as usize;
            assert!(first < slot && slots[first] % 4 != 2 && slots[first] != 0);
        }
        assert!(*word != RESERVED || words[at(number, 0)] == 1, "reserved above shift 0");
        if is_sibling_word(*word) || *word == 0 || *word == RESERVED {
            assert!((0..3).all(|mark| words[mark_at(number, mark)] >> slot & 1 == 0));
        }
    }
}

/// The head node cannot be done without, and the anchor has the marks it has in any slot.
fn assert_head_node(words: &[u64], number: usize) {
    assert_eq!(words[at(number, 1)], 0);
    let beyond = &words[slot_at(number, 1)..slot_at(number, 64)];
    if beyond.iter().all(|word| *word == 0) {
        assert!(!is_node_word(words[slot_at(number, 0)]), "the head could be lower");
        assert!(words[at(number, 0)] > 1, "the head could be the entry");
    }
    for mark in 0..3 {
        assert_eq!(words[2] >> mark & 1 == 1, words[mark_at(number, mark)] != 0);
    }
}
