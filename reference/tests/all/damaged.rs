//! Damaged pools are answer 2; any numbering of nodes is well-formed; any words are survived.

use crate::helpers::*;
use reference::calls::{check, run};
use reference::random::Random;

fn assert_damaged(words: &[u64]) {
    assert_eq!(check(words), outcome(2, 0));
    let mut pool = words.to_vec();
    assert_eq!(run(&mut pool, &[], &mut []), outcome(2, 0));
    assert_eq!(pool, words);
}

/// This one word is changed, and then its node's filled count with it.
fn assert_damaged_by(words: &[u64], place: usize, word: u64) {
    let mut damaged = words.to_vec();
    damaged[place] = word;
    assert_damaged(&damaged);
    assert_damaged(&with_word(words, place, word));
}

fn assert_well_formed(words: &[u64]) {
    assert_eq!(check(words), outcome(0, 0));
}

/// Case 3 with mark 0 on index 64, in a pool with a free node.
fn marked_case_3() -> Vec<u64> {
    let mut pool = case_3(4);
    pool.expect_mark(64, 0, gives(64, 0, 5, 1));
    pool.words
}

#[test]
fn a_word_that_fits_nowhere_is_seen_at_every_place() {
    let words = marked_case_3();
    assert_well_formed(&words);
    for place in 0..words.len() {
        for junk in [4002, 4 * (1024 + 4) + 2, 4 * 64 + 2, LAST - 1] {
            assert_damaged_by(&words, place, junk);
        }
    }
}

#[test]
fn a_cleared_or_flipped_word_is_seen() {
    let words = marked_case_3();
    let entries = [slot_at(1, 0), slot_at(2, 0)];
    let nonzero = (0..words.len()).filter(|place| words[*place] != 0);
    for place in nonzero.filter(|place| !entries.contains(place)) {
        for other in [0, words[place] ^ 1, words[place] + 4, words[place] ^ (1 << 40)] {
            assert_damaged_by(&words, place, other);
        }
    }
    for place in entries {
        assert_damaged_by(&words, place, 0);
    }
}

#[test]
fn anchor_words() {
    let mut words = case_2(1).words;
    for marks in 0..8 {
        words[2] = marks;
        assert_well_formed(&words);
    }
    words[2] = 8;
    assert_damaged(&words);
    words[2] = 0;
    words[3] = 1;
    assert_damaged(&words);
    words[3] = 0;
    for count in [0, 2, 1 << 32] {
        words[0] = count;
        assert_damaged(&words);
    }
    let mut words = Pool::fresh(1).words;
    words[2] = 1;
    assert_damaged(&words);
}

#[test]
fn heads_that_no_list_prescribes() {
    for head in [2, 34, 4094, node_word(0), node_word(1), node_word(900), LAST - 1] {
        assert_damaged(&words_with(1, &[(1, head)]));
    }
    for shift in [0, 1, 2, 5, 6, 12, 54, 59, 60, 61, 66, 255, LAST - 1] {
        let mut named = vec![(1, node_word(0))];
        named.extend(node(0, shift, 0, &[]));
        assert_damaged(&words_with(1, &named));
    }
    for shift in [66, 72, 252, 1 << 32] {
        let mut named = vec![(1, node_word(0))];
        named.extend(node(0, shift, 0, &[(1, 5)]));
        assert_damaged(&words_with(1, &named));
    }
}

/// A pool of one node, the head, with these slots.
fn one_node(shift: u64, slots: &[(usize, u64)]) -> Vec<u64> {
    let mut named = vec![(1, node_word(0))];
    named.extend(node(0, shift, 0, slots));
    words_with(1, &named)
}

#[test]
fn a_head_too_tall() {
    assert_well_formed(&case_2(1).words);
    assert_damaged(&one_node(0, &[(0, 3)]));
    assert_well_formed(&one_node(0, &[(0, 3), (1, 2)]));
    assert_well_formed(&one_node(0, &[(1, 3)]));
    assert_well_formed(&one_node(6, &[(0, 3)]));
    assert_well_formed(&one_node(60, &[(0, 3)]));
    let mut named = vec![(1, node_word(0))];
    named.extend(node(0, 6, 0, &[(0, node_word(1))]));
    named.extend(node(1, 0, 1, &[(1, 3)]));
    assert_damaged(&words_with(2, &named));
}

#[test]
fn an_empty_node() {
    assert_damaged(&one_node(0, &[]));
    assert_damaged(&one_node(60, &[]));
    let mut words = case_3(4).words;
    words[slot_at(0, 5)] = node_word(3);
    words[at(3, 0)] = 1;
    words[at(3, 1)] = 6;
    recount(&mut words);
    assert_damaged(&words);
    words[slot_at(3, 0)] = 7;
    recount(&mut words);
    assert_well_formed(&words);
}

/// A head of this shift whose first entry, in `slot`, has siblings up to `slots` slots.
fn with_run(shift: u64, slot: usize, slots: usize) -> Vec<u64> {
    let mut named = vec![(slot, 7)];
    named.extend((slot + 1..slot + slots).map(|next| (next, 4 * slot as u64 + 2)));
    one_node(shift, &named)
}

#[test]
fn runs_of_siblings() {
    for shift in [0, 6, 30, 54] {
        for slots in 1..=32 {
            let words = with_run(shift, 32, slots);
            let good = slots.is_power_of_two();
            assert_eq!(check(&words).answer, if good { 0 } else { 2 }, "{shift} {slots}");
        }
        assert_damaged(&with_run(shift, 0, 64));
        assert_damaged(&with_run(shift, 33, 2));
        assert_damaged(&with_run(shift, 36, 8));
    }
    assert_well_formed(&with_run(60, 8, 8));
    assert_well_formed(&with_run(60, 0, 8));
    assert_damaged(&with_run(60, 0, 16));
    assert_damaged(&with_run(60, 0, 64));
    assert_damaged(&with_run(60, 8, 16));
}

#[test]
fn stray_siblings() {
    assert_damaged(&one_node(0, &[(1, 5), (2, 2)]));
    assert_damaged(&one_node(0, &[(2, 5), (4, 10)]));
    assert_damaged(&one_node(0, &[(2, 5), (3, 14)]));
    assert_damaged(&one_node(0, &[(2, 5), (3, 18)]));
    assert_damaged(&one_node(0, &[(2, 10), (3, 10)]));
}

#[test]
fn slots_past_the_last_index() {
    for word in [7, 8, 66, node_word(0)] {
        for slot in [16, 17, 63] {
            assert_damaged(&one_node(60, &[(15, 7), (slot, word)]));
        }
    }
}

#[test]
fn mark_bits() {
    let mut words = with_run(0, 8, 4);
    for mark in 0..3 {
        words[2] = 1 << mark;
        assert_damaged(&words);
        words[mark_at(0, mark)] = 1 << 8;
        assert_well_formed(&words);
        words[mark_at(0, mark)] = 1 << 9;
        assert_damaged(&words);
        words[mark_at(0, mark)] = 1 << 8 | 1 << 9;
        assert_damaged(&words);
        words[mark_at(0, mark)] = 1 << 8 | 1 << 20;
        assert_damaged(&words);
        words[mark_at(0, mark)] = 0;
    }
}

/// Nodes that lead to themselves, to each other, or one reached twice: no endless walk.
#[test]
fn loops_and_shared_nodes() {
    for shift in (0..=60).step_by(6) {
        let all: Vec<(usize, u64)> = (0..64).map(|slot| (slot, node_word(0))).collect();
        assert_damaged(&one_node(shift, &all));
    }
    let mut words = words_with(11, &[(1, node_word(0))]);
    for number in 0..11 {
        words[at(number, 0)] = 61 - 6 * number as u64;
        for slot in 0..64 {
            words[slot_at(number, slot)] = if number < 10 { node_word(number + 1) } else { 3 };
        }
    }
    recount(&mut words);
    assert_damaged(&words);
    let mut words = case_3(3).words;
    words[slot_at(0, 1)] = node_word(1);
    assert_damaged(&words);
}

#[test]
fn any_numbering_is_well_formed() {
    let mut named = vec![(1, node_word(4))];
    named.extend(node(4, 6, 0, &[(0, node_word(3)), (1, node_word(1))]));
    named.extend(node(3, 0, 1 + 64 * 4, &[(0, 3)]));
    named.extend(node(1, 0, 1 + 64 * 4 + 1, &[(0, 5)]));
    let words = words_with(5, &named);
    assert_well_formed(&words);
    let mut pool = Pool { words };
    pool.expect_load(64, counting(gives(64, 0, 5, 0), 2));
    pool.put(4095, 7);
    named.push((slot_at(4, 63), node_word(0)));
    named.extend(node(0, 0, 1 + 64 * 4 + 63, &[(63, 7)]));
    pool.assert_words(&named);
}

/// The largest pool, with the last node as head: the numbers of its nodes take more than 10 bits.
#[test]
fn the_last_of_16384_nodes() {
    let (head, low, high) = (16_383, 16_382, 1000);
    let mut named = vec![(1, node_word(head))];
    named.extend(node(head, 6, 0, &[(0, node_word(low)), (1, node_word(high))]));
    named.extend(node(low, 0, 1 + 64 * 16_383, &[(0, 3)]));
    named.extend(node(high, 0, 1 + 64 * 16_383 + 1, &[(0, 5)]));
    let mut pool = Pool { words: words_with(16_384, &named) };
    assert_eq!(pool.words[1], 4 * 17_407 + 2);
    pool.expect_load(64, counting(gives(64, 0, 5, 0), 2));
    pool.expect_erase(64, gives(64, 0, 5, 0));
    pool.assert_words(&[(1, 3)]);
    assert_damaged(&words_with(16_384, &[(1, node_word(16_384))]));
    assert_damaged(&with_word(&words_with(16_384, &[]), count_at(16_383), 1));
}

/// Words that look like parts of a tree, thrown together; most are damaged, none does harm.
#[test]
fn random_words_do_no_harm() {
    let mut random = Random::new(11);
    for _ in 0..3000 {
        let count = 1 + random.below(4) as usize;
        let mut words = words_with(count, &[(1, node_word(random.below(count as u64) as usize))]);
        for number in 0..count {
            words[at(number, 0)] = 1 + 6 * random.below(12);
        }
        for _ in 0..random.below(20) {
            let place = random.below(words.len() as u64) as usize;
            words[place] = match random.below(4) {
                0 => node_word(random.below(count as u64 + 1) as usize),
                1 => 4 * random.below(65) + 2,
                2 => random.below(300),
                _ => random.word(),
            };
        }
        if random.one_in(2) {
            recount(&mut words);
        }
        let answer = check(&words).answer;
        assert!(answer == 0 || answer == 2);
    }
}
