//! The part that a call may write, by hand.

use super::helpers::*;
use reference::names::command::{execute, Call};
use reference::names::part::Part;

/// The numbers of the blocks in a call's part; none if not even the words before them are in it.
fn part_of(names: &Names, call: Call) -> Option<Vec<usize>> {
    let before = names.state();
    let part = Part::of(&before, &call, &execute(&before, &call));
    let whole = |places: std::ops::Range<usize>| {
        let held = places.clone().filter(|place| part.contains(*place)).count();
        assert!(held == 0 || held == places.len());
        held > 0
    };
    let blocks: Vec<usize> =
        (0..before.places.len()).filter(|n| whole(at(*n, 0)..at(*n + 1, 0))).collect();
    let first = whole(0..2);
    assert!(first || blocks.is_empty());
    first.then_some(blocks)
}

fn insert(key: &[u8]) -> Call {
    Call::Insert { key: key.to_vec(), object: 7 }
}

fn delete(key: &[u8]) -> Call {
    Call::Delete { key: key.to_vec() }
}

/// Root node 0 with slots 0 and 1: shortcut 21 to node 18 of the 17 keys of one byte, and leaf 22. Node 19 has 0x00 (leaf 1)
/// and 0x01 (leaf 20); 17 and 23 are free.
fn names() -> Names {
    let mut names = sixteen(24);
    names.put(&[0x01], 33, 4);
    names.put(&[0xAA; 16], 24, 3);
    names
}

#[test]
fn nothing_for_what_only_reads_and_refusals() {
    assert_eq!(part_of(&names(), Call::Check), None);
    assert_eq!(part_of(&names(), Call::Lookup { key: vec![0x01] }), None);
    assert_eq!(part_of(&names(), Call::Lookup { key: vec![] }), None);
    assert_eq!(part_of(&names(), delete(&[0x02])), None);
    assert_eq!(part_of(&names(), insert(&[7; 33])), None);
    assert_eq!(part_of(&names(), Call::Insert { key: vec![0x01], object: 2 }), None);
    assert_eq!(part_of(&sixteen(17), insert(&[0x01])), None);
}

#[test]
fn everything_for_clear() {
    assert_eq!(part_of(&names(), Call::Clear), Some((0..24).collect()));
}

/// Nodes over the key and its leaf: a shortcut that stays is not among them.
#[test]
fn the_nodes_over_the_key() {
    assert_eq!(part_of(&names(), insert(&[0x01])), Some(vec![0, 18, 19, 20]));
    assert_eq!(part_of(&names(), insert(&[0x40])), Some(vec![0, 5, 18]));
    assert_eq!(part_of(&names(), insert(&[0xAA; 16])), Some(vec![0, 22]));
    assert_eq!(part_of(&names(), insert(&[0x02])), Some(vec![0, 17, 18, 19]));
}

/// A second key of 16 bytes: node 17 over the two, and leaf 23.
#[test]
fn blocks_taken_and_given_up() {
    assert_eq!(part_of(&names(), insert(&[0xAB; 16])), Some(vec![0, 17, 23]));
    // 17 keys of one byte become 16: node 17 for shortcut 21 and nodes 18, 19; leaf 20 goes.
    assert_eq!(part_of(&names(), delete(&[0x01])), Some(vec![0, 17, 18, 19, 20, 21]));
}

/// The parting of shortcut 21 and the joining of it have node 18 under it in their part, which has not the key.
#[test]
fn the_node_under_a_shortcut() {
    assert_eq!(part_of(&names(), insert(b"ab")), Some(vec![0, 17, 18, 21, 23]));
    assert_eq!(part_of(&names(), delete(&[0xAA; 16])), Some(vec![0, 17, 18, 21, 22]));
}
