//! The part a command may write: which places are in it, by hand.

use crate::helpers::*;
use reference::batch::Command;
use reference::command::execute;
use reference::part::Part;

/// The numbers of the nodes in a command's part, and whether the anchor is in it.
fn part_of(pool: &Pool, command: Command) -> (bool, Vec<usize>) {
    let before = pool.state();
    let part = Part::of(&before, &execute(&before, command));
    let whole = |places: std::ops::Range<usize>| {
        let held = places.clone().filter(|place| part.contains(*place)).count();
        assert!(held == 0 || held == places.len());
        held > 0
    };
    let nodes = (0..before.places.len()).filter(|n| whole(at(*n, 0)..at(*n + 1, 0))).collect();
    (whole(0..4), nodes)
}

/// Case 3 and entry 7 at 4,095: head 0, nodes 1, 2, 3 below slots 0, 1, 63; node 4 is free.
fn pool() -> Pool {
    let mut pool = case_3(5);
    pool.put(4095, 7);
    pool
}

#[test]
fn nothing_for_load_find_and_refusals() {
    let nothing = (false, vec![]);
    let find = Command::Find { first: 0, last: LAST, filter: 3, budget: 5 };
    assert_eq!(part_of(&pool(), find), nothing);
    assert_eq!(part_of(&pool(), Command::Load { index: 0 }), nothing);
    assert_eq!(part_of(&pool(), Command::Erase { index: 1 }), nothing);
    assert_eq!(part_of(&pool(), Command::Mark { index: 0, mark: 3 }), nothing);
    let store = |index, order, word| Command::Store { index, order, word };
    assert_eq!(part_of(&pool(), store(0, 64, 5)), nothing);
    assert_eq!(part_of(&pool(), store(0, 0, 2)), nothing);
    assert_eq!(part_of(&pool(), store(65, 1, 5)), nothing);
    assert_eq!(part_of(&pool(), store(LAST, 0, 5)), nothing);
}

#[test]
fn the_path_of_the_entry() {
    let store = |index, order| Command::Store { index, order, word: 9 };
    assert_eq!(part_of(&pool(), Command::Mark { index: 64, mark: 0 }), (true, vec![0, 2]));
    assert_eq!(part_of(&pool(), Command::Unmark { index: 0, mark: 0 }), (true, vec![0, 1]));
    assert_eq!(part_of(&pool(), store(65, 0)), (true, vec![0, 2]));
    assert_eq!(part_of(&pool(), Command::Erase { index: 64 }), (true, vec![0, 2]));
}

/// Of a reserve, and of a store and an erase of what it left.
#[test]
fn the_path_of_a_reservation() {
    let reserve = |index| Command::Reserve { index };
    assert_eq!(part_of(&pool(), reserve(65)), (true, vec![0, 2]));
    assert_eq!(part_of(&pool(), reserve(128)), (true, vec![0, 4]));
    assert_eq!(part_of(&pool(), reserve(64)), (false, vec![]));
    assert_eq!(part_of(&pool(), reserve(4096)), (false, vec![]));
    assert_eq!(part_of(&case_2(3), reserve(64)), (true, vec![0, 1, 2]));
    assert_eq!(part_of(&Pool::fresh(1), reserve(0)), (true, vec![]));
    let mut pool = pool();
    pool.expect(reserve(66), gives(66, 0, 0, 0));
    assert_eq!(part_of(&pool, Command::Erase { index: 66 }), (true, vec![0, 2]));
    assert_eq!(part_of(&pool, Command::Mark { index: 66, mark: 0 }), (false, vec![]));
    let store = Command::Store { index: 66, order: 0, word: 9 };
    assert_eq!(part_of(&pool, store), (true, vec![0, 2]));
}

#[test]
fn allocated_and_freed_nodes_and_both_heads() {
    let store = |index, order| Command::Store { index, order, word: 9 };
    assert_eq!(part_of(&pool(), store(128, 0)), (true, vec![0, 4]));
    assert_eq!(part_of(&pool(), store(0, 7)), (true, vec![0, 1, 2]));
    assert_eq!(part_of(&pool(), store(4096, 12)), (true, vec![0, 4]));
    assert_eq!(part_of(&case_3(3), Command::Erase { index: 64 }), (true, vec![0, 1, 2]));
    assert_eq!(part_of(&case_3(3), store(0, 12)), (false, vec![]));
    assert_eq!(part_of(&case_3(4), store(0, 12)), (true, vec![0, 1, 2, 3]));
}

/// A store into a larger entry writes that entry's whole run: the nodes over it.
#[test]
fn the_target_range_of_a_store_into_a_larger_entry() {
    let mut pool = case_3(5);
    pool.expect_store(4096, 12, 9, gives(4096, 12, 9, 0));
    let store = Command::Store { index: 5000, order: 3, word: 11 };
    assert_eq!(part_of(&pool, store), (true, vec![3]));
}
