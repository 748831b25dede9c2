//! Find's steps where the rules need a close reading (docs/DECISIONS.md, reading 5).

use crate::helpers::*;
use reference::batch::Command;

fn find(first: u64, last: u64, filter: u8, budget: u16) -> Command {
    Command::Find { first, last, filter, budget }
}

fn ended(steps: u16) -> Said {
    counting(only(12), steps)
}

fn paused(position: u64, steps: u16) -> Said {
    Said { index: position, ..counting(only(13), steps) }
}

#[test]
fn no_head_is_one_step_that_ends() {
    let mut pool = Pool::fresh(1);
    pool.expect(find(0, LAST, 3, 1), ended(1));
    pool.expect(find(LAST, LAST, 0, 9), ended(1));
}

#[test]
fn an_entry_as_head_is_one_slot() {
    let mut pool = case_2(1);
    pool.expect(find(0, LAST, 3, 1), counting(gives(0, 0, 3, 0), 1));
    pool.expect(find(1, LAST, 3, 1), ended(1));
    pool.expect(find(0, 0, 1, 9), ended(1));
    pool.expect(find(0, LAST, 1, 9), ended(2));
    pool.expect(find(0, LAST, 1, 2), ended(2));
    pool.expect(find(0, LAST, 1, 1), paused(1, 1));
    pool.expect_mark(0, 1, gives(0, 0, 3, 2));
    pool.expect(find(0, LAST, 1, 1), counting(gives(0, 0, 3, 2), 1));
    pool.expect(find(0, LAST, 0, 9), ended(2));
}

/// One node of shift 0: 64 slots, then one step past the head's block.
#[test]
fn passing_the_last_slot_of_the_head() {
    let mut pool = Pool::fresh(1);
    pool.put(63, 7);
    pool.expect(find(0, LAST, 3, 64), counting(gives(63, 0, 7, 0), 64));
    pool.expect(find(0, LAST, 0, 100), ended(65));
    pool.expect(find(0, LAST, 0, 65), ended(65));
    pool.expect(find(0, LAST, 0, 64), paused(64, 64));
    pool.expect(find(0, 64, 0, 100), ended(65));
    pool.expect(find(0, 63, 0, 100), ended(64));
    pool.expect(find(0, 62, 3, 100), ended(63));
    pool.expect(find(64, LAST, 3, 100), ended(1));
}

#[test]
fn an_entry_without_the_mark_is_passed_whole() {
    let mut pool = Pool::fresh(1);
    pool.expect_store(8, 3, 7, gives(8, 3, 7, 0));
    pool.expect(find(8, LAST, 2, 1), paused(16, 1));
    pool.expect(find(12, LAST, 2, 1), paused(16, 1));
    pool.expect(find(12, 15, 2, 1), ended(1));
    pool.expect(find(12, 16, 2, 9), ended(2));
}

/// Above an entry, a slot without the mark is passed whole from wherever the position is.
#[test]
fn a_slot_without_the_mark_is_passed_whole() {
    let mut pool = case_3(4);
    pool.put(4095, 7);
    pool.expect_mark(4095, 2, gives(4095, 0, 7, 4));
    pool.expect(find(70, LAST, 2, 1), paused(128, 1));
    pool.expect(find(0, LAST, 2, 200), counting(gives(4095, 0, 7, 4), 63 + 64));
    pool.expect(find(70, 127, 2, 1), ended(1));
    pool.expect(find(200, LAST, 3, 1), paused(256, 1));
}

#[test]
fn the_last_index_has_none_after_it() {
    let mut pool = Pool::fresh(11);
    pool.put(LAST, 7);
    pool.expect(find(LAST, LAST, 3, 1), counting(gives(LAST, 0, 7, 0), 1));
    pool.expect(find(LAST, LAST, 0, 1), ended(1));
    pool.expect(find(0, LAST, 3, 1), paused(1 << 60, 1));
    let steps = 15 + 63 * 10 + 1;
    pool.expect(find(0, LAST, 3, 2000), counting(gives(LAST, 0, 7, 0), steps));
}

/// Order 63 twice: two steps of one entry each, and 2^64 ends the second.
#[test]
fn the_widest_entries() {
    let mut pool = Pool::fresh(1);
    pool.expect_store(0, 63, 7, gives(0, 63, 7, 0));
    pool.expect_store(1 << 63, 63, 9, gives(1 << 63, 63, 9, 0));
    pool.expect(find(0, LAST, 0, 9), ended(2));
    pool.expect(find(1 << 62, LAST, 1, 1), paused(1 << 63, 1));
    pool.expect(find(LAST - 5, LAST, 3, 1), counting(gives(1 << 63, 63, 9, 0), 1));
}
