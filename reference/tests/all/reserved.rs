//! Reservations (request P6): whole pools of words, replies, and what the check refuses.

use crate::helpers::*;
use reference::batch::Command;
use reference::calls::{check, list};
use reference::command::needed_to_reserve;

const RESERVED: u64 = 1030;

/// The reply of a reserve that is done, or of an erase of a reservation.
fn base(index: u64) -> Said {
    gives(index, 0, 0, 0)
}

fn find(first: u64, last: u64, filter: u8, budget: u16) -> Command {
    Command::Find { first, last, filter, budget }
}

fn ended(steps: u16) -> Said {
    counting(only(12), steps)
}

fn paused(position: u64, steps: u16) -> Said {
    Said { index: position, ..counting(only(13), steps) }
}

impl Pool {
    fn expect_reserve(&mut self, index: u64, said: Said) {
        self.expect(Command::Reserve { index }, said);
    }

    fn reserve(&mut self, index: u64) {
        self.expect_reserve(index, base(index));
    }

    fn needed_to_reserve(&self, index: u64) -> Option<usize> {
        needed_to_reserve(&self.state(), index)
    }

    /// Refused with this answer, and no word is altered.
    fn refuses(&mut self, command: Command, answer: u8) {
        let before = self.words.clone();
        self.expect(command, only(answer));
        assert_eq!(self.words, before);
    }
}

/// A fresh pool in which these indices are reserved, one after the other.
fn reserved(count: usize, indices: &[u64]) -> Pool {
    let mut pool = Pool::fresh(count);
    indices.iter().for_each(|index| pool.reserve(*index));
    pool
}

/// The words of a pool whose head is node 0, of shift 0, with these slots.
fn one_node(slots: &[(usize, u64)]) -> Vec<(usize, u64)> {
    let mut named = vec![(1, node_word(0))];
    named.extend(node(0, 0, 0, slots));
    named
}

/// Head node 0 of shift 6, nodes 1 and 2 below its slots 0 and 1, their first slots filled so.
fn two_leaves(low: u64, high: u64) -> Vec<(usize, u64)> {
    let mut named = vec![(1, node_word(0))];
    named.extend(node(0, 6, 0, &[(0, node_word(1)), (1, node_word(2))]));
    named.extend(node(1, 0, 1, &[(0, low)]));
    named.extend(node(2, 0, 2, &[(0, high)]));
    named
}

#[test]
fn on_a_fresh_pool() {
    let mut pool = Pool::fresh(1);
    assert_eq!(pool.needed_to_reserve(5), Some(1));
    pool.reserve(5);
    pool.assert_words(&one_node(&[(5, 1030)]));
}

/// Tag 7 with length 8, and tag 135 (87 in hex) with length 21.
#[test]
fn the_bytes_of_a_reserve_and_of_its_replies() {
    let record = hex("07 0008 0000000000000040");
    let done = hex("87 0015 00 0000000000000040 00 0000000000000000 00 0000");
    let covered = hex("87 0015 0F 0000000000000000 00 0000000000000000 00 0000");
    let erased = hex("83 0015 00 0000000000000040 00 0000000000000000 00 0000");
    assert_eq!((record.len(), done.len()), (11, 24));
    let mut pool = Pool::fresh(2);
    assert_eq!(pool.run(&record, 1), done);
    assert_eq!(pool.run(&record, 1), covered);
    assert_eq!(pool.run(&hex("03 0008 0000000000000040"), 1), erased);
}

#[test]
fn alone_at_index_0_it_is_the_head() {
    let mut pool = Pool::fresh(1);
    assert_eq!(pool.needed_to_reserve(0), Some(0));
    pool.reserve(0);
    pool.assert_words(&[(1, 1030)]);
    pool.refuses(Command::Reserve { index: 0 }, 15);
    pool.expect_load(0, only(10));
    pool.refuses(Command::Mark { index: 0, mark: 1 }, 10);
    pool.expect_erase(0, base(0));
    pool.assert_words(&[]);
}

#[test]
fn what_an_entry_covers_is_refused() {
    let mut pool = Pool::fresh(1);
    pool.put(3, 5);
    pool.expect_store(8, 3, 7, gives(8, 3, 7, 0));
    for index in [3, 8, 9, 13, 15] {
        pool.refuses(Command::Reserve { index }, 15);
        assert_eq!(pool.needed_to_reserve(index), None);
    }
    pool.reserve(7);
    pool.reserve(16);
    let mut named = one_node(&[(3, 5), (7, 1030), (8, 7), (16, 1030)]);
    named.extend((9..=15).map(|slot| (slot_at(0, slot), 34)));
    pool.assert_words(&named);

    case_2(1).refuses(Command::Reserve { index: 0 }, 15);
}

#[test]
fn what_a_reservation_covers_is_refused() {
    let mut pool = reserved(2, &[64, 67]);
    pool.refuses(Command::Reserve { index: 64 }, 15);
    pool.refuses(Command::Reserve { index: 67 }, 15);
    pool.reserve(65);
}

/// Each reserve would need a node, and there is none left: order 6 at 0 is in the one node.
#[test]
fn covered_is_told_before_too_few_nodes() {
    let mut pool = Pool::fresh(1);
    pool.expect_store(0, 6, 7, gives(0, 6, 7, 0));
    pool.refuses(Command::Reserve { index: 5 }, 15);
    pool.refuses(Command::Reserve { index: 63 }, 15);
    pool.refuses(Command::Reserve { index: 64 }, 11);
    let mut pool = reserved(1, &[5]);
    pool.refuses(Command::Reserve { index: 5 }, 15);
    pool.refuses(Command::Reserve { index: 64 }, 11);
}

/// As case 3 and case 6, of reservations: 64 after 0 needs 3 nodes, the last index 21, and 11 on a
/// fresh pool.
#[test]
fn too_few_nodes() {
    let mut pool = reserved(2, &[0]);
    assert_eq!(pool.needed_to_reserve(64), Some(3));
    pool.refuses(Command::Reserve { index: 64 }, 11);
    pool.assert_words(&[(1, 1030)]);
    let mut pool = reserved(3, &[0]);
    pool.reserve(64);
    pool.assert_words(&two_leaves(1030, 1030));

    assert_eq!(pool.needed_to_reserve(4095), Some(1));
    assert_eq!(pool.needed_to_reserve(4096), Some(3));
    assert_eq!(pool.needed_to_reserve(1), Some(0));
    pool.refuses(Command::Reserve { index: 4095 }, 11);

    let mut pool = reserved(20, &[0]);
    assert_eq!(pool.needed_to_reserve(LAST), Some(21));
    pool.refuses(Command::Reserve { index: LAST }, 11);
    reserved(21, &[0]).reserve(LAST);
    Pool::fresh(10).refuses(Command::Reserve { index: LAST }, 11);
    reserved(11, &[LAST]).expect_load(LAST, counting(only(10), 11));
}

/// An entry at 0 and a reservation at 4096: shift 12, two nodes of shift 6, two of shift 0.
#[test]
fn it_shapes_the_tree_as_an_entry_does() {
    let mut pool = case_2(5);
    assert_eq!(pool.needed_to_reserve(4096), Some(5));
    pool.reserve(4096);
    let mut named = vec![(1, node_word(0))];
    named.extend(node(0, 12, 0, &[(0, node_word(1)), (1, node_word(2))]));
    named.extend(node(1, 6, 1, &[(0, node_word(3))]));
    named.extend(node(2, 6, 2, &[(0, node_word(4))]));
    named.extend(node(3, 0, 1 + 64, &[(0, 3)]));
    named.extend(node(4, 0, 1 + 64 * 2, &[(0, 1030)]));
    pool.assert_words(&named);
    pool.expect_load(0, counting(gives(0, 0, 3, 0), 3));
    pool.expect_load(4096, counting(only(10), 3));
    pool.expect_erase(4096, base(4096));
    pool.assert_words(&[(1, 3)]);
}

#[test]
fn a_store_of_order_0_replaces_it() {
    let mut pool = reserved(1, &[5, 6]);
    assert_eq!(pool.needed(5, 0), 0);
    pool.put(5, 9);
    pool.assert_words(&one_node(&[(5, 9), (6, 1030)]));
    pool.expect_load(5, counting(gives(5, 0, 9, 0), 1));

    let mut pool = reserved(1, &[0]);
    pool.put(0, 3);
    pool.assert_words(&[(1, 3)]);
}

/// Entry 9 with marks 1 and 2 hands on mark 1 (request P5); the reservations have none.
#[test]
fn a_store_of_a_larger_order_replaces_all_in_its_run() {
    let mut pool = reserved(1, &[8, 13, 16]);
    pool.put(9, 5);
    pool.expect_mark(9, 1, gives(9, 0, 5, 2));
    pool.expect_mark(9, 2, gives(9, 0, 5, 6));
    pool.expect_store(8, 3, 7, gives(8, 3, 7, 2));
    let mut named = one_node(&[(8, 7), (16, 1030)]);
    named.extend([(2, 2), (mark_at(0, 1), 1 << 8)]);
    named.extend((9..=15).map(|slot| (slot_at(0, slot), 34)));
    pool.assert_words(&named);

    let mut pool = reserved(1, &[8, 13]);
    pool.expect_store(8, 3, 7, gives(8, 3, 7, 0));
}

/// Order 6 at 64: the node of shift 0 that held the reservation goes. The head of shift 6 stays.
#[test]
fn a_store_that_frees_its_node() {
    let mut pool = reserved(2, &[70]);
    let mut named = vec![(1, node_word(0))];
    named.extend(node(0, 6, 0, &[(1, node_word(1))]));
    let head = named.clone();
    named.extend(node(1, 0, 2, &[(6, 1030)]));
    pool.assert_words(&named);
    assert_eq!(pool.needed(64, 6), 0);
    pool.expect_store(64, 6, 9, gives(64, 6, 9, 0));
    let mut named = head;
    named.push((slot_at(0, 1), 9));
    pool.assert_words(&named);
}

/// The head alone: an entry of order 3 there needs a node.
#[test]
fn a_larger_store_over_a_reservation_as_head() {
    let mut pool = reserved(1, &[0]);
    assert_eq!(pool.needed(0, 3), 1);
    pool.expect_store(0, 3, 7, gives(0, 3, 7, 0));
    let mut named = one_node(&[(0, 7)]);
    named.extend((1..=7).map(|slot| (slot_at(0, slot), 2)));
    pool.assert_words(&named);
}

/// The count of a load is by block, whatever stands at the index.
#[test]
fn a_load_finds_nothing_and_counts() {
    let mut pool = reserved(2, &[64]);
    pool.expect_load(64, counting(only(10), 2));
    pool.expect_load(65, counting(only(10), 2));
    pool.expect_load(128, counting(only(10), 1));
    pool.expect_load(4096, only(10));
}

#[test]
fn marks_find_nothing() {
    let mut pool = reserved(1, &[5]);
    pool.put(6, 3);
    for mark in 0..3 {
        pool.refuses(Command::Mark { index: 5, mark }, 10);
        pool.refuses(Command::Unmark { index: 5, mark }, 10);
    }
    for mark in [3, 255] {
        pool.refuses(Command::Mark { index: 5, mark }, 7);
        pool.refuses(Command::Unmark { index: 5, mark }, 7);
    }
}

/// A reservation at 5 and entry 9 at 7 with every mark: each of slots 0 to 7 is one step.
#[test]
fn a_find_passes_it_with_every_filter() {
    let mut pool = reserved(1, &[5]);
    pool.put(7, 9);
    for (mark, marks) in [(0, 1), (1, 3), (2, 7)] {
        pool.expect_mark(7, mark, gives(7, 0, 9, marks));
    }
    for filter in 0..=3 {
        pool.expect(find(0, LAST, filter, 8), counting(gives(7, 0, 9, 7), 8));
        pool.expect(find(5, LAST, filter, 3), counting(gives(7, 0, 9, 7), 3));
        pool.expect(find(5, LAST, filter, 1), paused(6, 1));
        pool.expect(find(4, 6, filter, 9), ended(3));
        pool.expect(find(5, 5, filter, 9), ended(1));
        pool.expect(find(8, LAST, filter, 99), ended(57));
    }
}

#[test]
fn a_find_passes_it_as_head() {
    let mut pool = reserved(1, &[0]);
    for filter in 0..=3 {
        pool.expect(find(0, LAST, filter, 1), paused(1, 1));
        pool.expect(find(0, LAST, filter, 2), ended(2));
        pool.expect(find(0, 1, filter, 9), ended(2));
        pool.expect(find(0, 0, filter, 9), ended(1));
        pool.expect(find(1, LAST, filter, 9), ended(1));
        pool.expect(find(LAST, LAST, filter, 9), ended(1));
    }
}

/// Below slot 1 of the head lies a reservation alone. With filter 3 the find goes down to it; with
/// the others the slot lacks the mark and is passed whole.
#[test]
fn a_find_in_a_node_of_reservations() {
    let mut pool = case_2(3);
    pool.reserve(70);
    pool.expect(find(64, LAST, 3, 1), paused(65, 1));
    pool.expect(find(70, LAST, 3, 1), paused(71, 1));
    pool.expect(find(64, 127, 3, 99), ended(64));
    for filter in 0..3 {
        pool.expect(find(64, LAST, filter, 1), paused(128, 1));
        pool.expect(find(70, LAST, filter, 1), paused(128, 1));
    }
}

/// Slot 63 of each node below slot 15 of the head, of shift 60: its end is 2^64.
#[test]
fn a_find_at_the_last_index() {
    let mut pool = reserved(11, &[LAST]);
    for filter in 0..=3 {
        pool.expect(find(LAST, LAST, filter, 1), ended(1));
    }
    pool.expect(find(LAST - 1, LAST, 3, 9), ended(2));
    pool.expect(find(LAST - 1, LAST, 0, 9), ended(1));
}

#[test]
fn an_erase_takes_it_out() {
    let mut pool = reserved(1, &[5, 6]);
    pool.expect_erase(5, base(5));
    pool.assert_words(&one_node(&[(6, 1030)]));
    pool.refuses(Command::Erase { index: 5 }, 10);
    pool.expect_erase(6, base(6));
    pool.assert_words(&[]);
}

#[test]
fn an_erase_where_nodes_go() {
    let mut pool = case_2(3);
    pool.reserve(64);
    pool.assert_words(&two_leaves(3, 1030));
    pool.expect_erase(64, base(64));
    pool.assert_words(&[(1, 3)]);

    let mut pool = reserved(3, &[0, 64]);
    pool.expect_erase(64, base(64));
    pool.assert_words(&[(1, 1030)]);

    let mut pool = reserved(3, &[0, 64]);
    pool.expect_erase(0, base(0));
    let mut named = vec![(1, node_word(0))];
    named.extend(node(0, 6, 0, &[(1, node_word(2))]));
    named.extend(node(2, 0, 2, &[(0, 1030)]));
    pool.assert_words(&named);
}

/// The reservation is alone at index 0 again and becomes the head.
#[test]
fn an_erase_of_an_entry_beside_it() {
    let mut pool = reserved(1, &[0]);
    pool.put(1, 5);
    pool.assert_words(&one_node(&[(0, 1030), (1, 5)]));
    pool.expect_erase(1, gives(1, 0, 5, 0));
    pool.assert_words(&[(1, 1030)]);
}

#[test]
fn no_store_carries_its_word() {
    let mut pool = reserved(1, &[5]);
    for (index, order) in [(5, 0), (6, 0), (0, 3)] {
        pool.refuses(Command::Store { index, order, word: RESERVED }, 6);
    }
}

/// The word of a listed reservation is 0, not 1,030 (406 in hex).
#[test]
fn a_listing() {
    let mut pool = reserved(3, &[0, 65]);
    pool.put(64, 5);
    pool.expect_mark(64, 0, gives(64, 0, 5, 1));
    let zero = hex("20 0012 0000000000000000 00 0000000000000000 00");
    let entry = hex("20 0012 0000000000000040 00 0000000000000005 01");
    let after = hex("20 0012 0000000000000041 00 0000000000000000 00");
    let lists = |first, last, wanted: &[&[u8]]| {
        let wanted = wanted.concat();
        let mut found = vec![UNTOUCHED; wanted.len()];
        let count = wanted.len() as u64 / 21;
        assert_eq!(list(&pool.words, first, last, &mut found), outcome(0, count));
        assert_eq!(found, wanted, "{first} to {last}");
    };
    lists(0, LAST, &[&zero, &entry, &after]);
    lists(0, 0, &[&zero]);
    lists(1, 64, &[&entry]);
    lists(65, LAST, &[&after]);
    lists(66, LAST, &[]);
    lists(1, 63, &[]);
    let mut short = [UNTOUCHED; 62];
    assert_eq!(list(&pool.words, 0, LAST, &mut short), outcome(4, 3));
    assert_eq!(short, [UNTOUCHED; 62]);
    let head = reserved(1, &[0]);
    let mut found = [UNTOUCHED; 21];
    assert_eq!(list(&head.words, 0, LAST, &mut found), outcome(0, 1));
    assert_eq!(found[..], zero);
}

/// Case 3 with mark 0 on index 64: leaf 1 has entry 3 in slot 0, leaf 2 the marked entry. The word
/// fits every slot of the leaves but the marked one, and no other place.
#[test]
fn the_check_takes_it_in_slots_of_shift_0_alone() {
    let mut pool = case_3(4);
    pool.expect_mark(64, 0, gives(64, 0, 5, 1));
    let leaves = (slot_at(1, 0)..slot_at(1, 64)).chain(slot_at(2, 1)..slot_at(2, 64));
    let good: Vec<usize> = leaves.collect();
    for place in 0..pool.words.len() {
        let answer = |word| check(&with_word(&pool.words, place, word));
        let wanted = if good.contains(&place) { 0 } else { 2 };
        assert_eq!(answer(RESERVED), outcome(wanted, 0), "word {place}");
        // Internal words beside it, among them XArray's retry entry 256, fit nowhere.
        for other in [1026, 1034] {
            assert_eq!(answer(other), outcome(2, 0), "{other} in word {place}");
        }
    }
}

fn checked(named: &[(usize, u64)]) -> u64 {
    check(&words_with(2, named)).answer
}

fn with(mut named: Vec<(usize, u64)>, more: &[(usize, u64)]) -> Vec<(usize, u64)> {
    named.extend(more);
    named
}

#[test]
fn the_check_of_a_head() {
    assert_eq!(checked(&[(1, 1030)]), 0);
    for marks in 1..9 {
        assert_eq!(checked(&[(1, 1030), (2, marks)]), 2);
    }
    // A node beside it, filled or only begun.
    assert_eq!(checked(&with(node(0, 0, 0, &[(5, 3)]), &[(1, 1030)])), 2);
    assert_eq!(checked(&[(1, 1030), (at(1, 0), 1)]), 2);
    // One index alone at 0 has no node.
    assert_eq!(checked(&one_node(&[(0, 1030)])), 2);
    assert_eq!(checked(&one_node(&[(0, 1030), (1, 1030)])), 0);
    assert_eq!(checked(&one_node(&[(63, 1030)])), 0);
}

#[test]
fn the_check_of_its_mark_bits() {
    let named = one_node(&[(5, 1030), (6, 3)]);
    assert_eq!(checked(&named), 0);
    for mark in 0..3 {
        let bits = mark_at(0, mark);
        let anchor = (2, 1 << mark);
        assert_eq!(checked(&with(named.clone(), &[(bits, 1 << 6), anchor])), 0);
        assert_eq!(checked(&with(named.clone(), &[(bits, 1 << 5), anchor])), 2);
        assert_eq!(checked(&with(named.clone(), &[(bits, 3 << 5), anchor])), 2);
        assert_eq!(checked(&with(named.clone(), &[(bits, 1 << 5)])), 2);
    }
}

#[test]
fn the_check_above_shift_0() {
    for shift in (6..=60).step_by(6) {
        let above = |slots: &[(usize, u64)]| checked(&with(node(0, shift, 0, slots), &[(1, 4098)]));
        for slot in [0, 1, 8, 15, 16, 63] {
            assert_eq!(above(&[(slot, 1030)]), 2, "shift {shift}, slot {slot}");
            assert_eq!(above(&[(2, 3), (slot, 1030)]), 2, "shift {shift}, slot {slot}");
        }
        assert_eq!(above(&[(2, 3)]), 0);
    }
}

/// Of order 3 at 8 the siblings are 4 * 8 + 2. Of order 1 the one sibling's place is a slot beside
/// an entry of order 0.
#[test]
fn the_check_among_siblings() {
    let run = |slots: usize| -> Vec<(usize, u64)> {
        let siblings = (9..8 + slots).map(|slot| (slot, 34));
        one_node(&[&[(8, 7)], &siblings.collect::<Vec<_>>()[..]].concat())
    };
    assert_eq!(checked(&run(8)), 0);
    for slot in 9..=15 {
        assert_eq!(checked(&with(run(8), &[(slot_at(0, slot), 1030)])), 2, "slot {slot}");
    }
    assert_eq!(checked(&with(run(8), &[(slot_at(0, 8), 1030)])), 2);
    assert_eq!(checked(&with(run(2), &[(slot_at(0, 9), 1030)])), 0);
    assert_eq!(checked(&with(run(2), &[(slot_at(0, 8), 1030)])), 2);
    assert_eq!(checked(&with(run(8), &[(slot_at(0, 16), 1030)])), 0);
    // No sibling leads to a reservation.
    assert_eq!(checked(&one_node(&[(8, 1030), (9, 34)])), 2);
    assert_eq!(checked(&one_node(&[(8, 1030), (9, 1030)])), 0);
}
