//! Random lists of calls beside a map of byte strings, with what the rules say of every call.

use super::damaged::is_well_formed;
use super::helpers::*;
use reference::calls::Outcome;
use reference::names::calls::{check, perform};
use reference::names::command::{execute, Call};
use reference::names::part::Part;
use reference::names::pool::State;
use reference::names::random::Calls;
use reference::names::recover::recover;
use reference::names::tree::Item;
use reference::random::Random;
use std::collections::BTreeMap;

type Map = BTreeMap<Vec<u8>, u64>;

fn is_object(word: u64) -> bool {
    word % 2 == 1 || word > 0 && word.trailing_zeros() > 1
}

/// The result of a call by the map alone, if there are blocks enough; the map is changed.
fn said(map: &mut Map, call: &Call) -> Outcome {
    let bad = |key: &Vec<u8>| key.is_empty() || key.len() > 32;
    let found = |object: Option<u64>| object.map_or(outcome(10, 0), |object| outcome(0, object));
    match call {
        Call::Clear => map.clear(),
        Call::Check => (),
        Call::Lookup { key } if bad(key) => return outcome(16, 0),
        Call::Lookup { key } => return found(map.get(key).copied()),
        Call::Insert { key, .. } if bad(key) => return outcome(16, 0),
        Call::Insert { object, .. } if !is_object(*object) => return outcome(6, 0),
        Call::Insert { key, object } => {
            map.insert(key.clone(), *object);
            return outcome(0, *object);
        }
        Call::Delete { key } if bad(key) => return outcome(16, 0),
        Call::Delete { key } => return found(map.remove(key)),
    }
    outcome(0, 0)
}

/// What was counted over all calls, so that a test can say what it has met.
#[derive(Default)]
struct Met {
    short_inserts: usize,
    short_deletes: usize,
    most_needed: usize,
    deletes_with_need: usize,
    shortcuts: usize,
}

/// One call on words, with all that holds of every call.
fn step(words: &mut [u64], map: &mut Map, call: &Call, met: &mut Met) {
    let before = recover(words).expect("well-formed");
    let old = words.to_vec();
    let mut after_map = map.clone();
    let (given, needed) = perform(words, call);
    let expected = said(&mut after_map, call);
    let used = before.places.iter().flatten().count();
    let free = before.places.len() - used;
    let changes = matches!(call, Call::Insert { .. } | Call::Delete { .. }) && expected.answer == 0;
    assert_eq!(needed.is_some(), changes);
    if needed.is_some_and(|count| count > free) {
        assert_eq!(given, outcome(11, 0));
        match call {
            Call::Delete { .. } => met.short_deletes += 1,
            _ => met.short_inserts += 1,
        }
    } else {
        assert_eq!(given, expected);
        *map = after_map;
    }
    let is_delete = matches!(call, Call::Delete { .. });
    assert!(needed.unwrap_or(0) <= if is_delete { 1 } else { 11 });
    met.most_needed = met.most_needed.max(needed.unwrap_or(0));
    met.deletes_with_need += usize::from(is_delete && needed == Some(1));
    assert_eq!(check(words), outcome(0, 0));
    assert!(is_well_formed(words));

    let after = recover(words).expect("well-formed");
    let done = execute(&before, call);
    assert_eq!((done.outcome, &done.state), (given, &after));
    assert_part(&before, call, &old, words);
    assert_numbers(&before, &after, needed.filter(|_| given.answer == 0));
    let list: Map = after.list.iter().map(|(key, object)| (key.bytes(), *object)).collect();
    assert_eq!(&list, map);
    let is_shortcut = |place: &&Item| matches!(place, Item::Shortcut { .. });
    met.shortcuts += after.places.iter().flatten().filter(is_shortcut).count();
}

/// A word outside the call's part stays.
fn assert_part(before: &State, call: &Call, old: &[u64], new: &[u64]) {
    let part = Part::of(before, call, &execute(before, call));
    for place in 0..old.len() {
        assert!(old[place] == new[place] || part.contains(place), "word {place}: {call:?}");
    }
}

/// What stays has its number, and what is new has the lowest numbers free before, widest first and leaves last.
fn assert_numbers(before: &State, after: &State, needed: Option<usize>) {
    let (old, new) = (before.numbers(), after.numbers());
    assert!(new.iter().all(|(item, number)| old.get(item).is_none_or(|was| was == number)));
    let Some(needed) = needed else {
        return;
    };
    let mut taken: Vec<(usize, &Item)> = new
        .iter()
        .filter(|(item, _)| !old.contains_key(*item))
        .map(|(item, n)| (*n, *item))
        .collect();
    taken.sort();
    let numbers: Vec<usize> = taken.iter().map(|(number, _)| *number).collect();
    let free: Vec<usize> =
        (0..before.places.len()).filter(|n| before.places[*n].is_none()).collect();
    assert_eq!(numbers, free[..needed]);
    let widths: Vec<(usize, Vec<u8>)> = taken
        .iter()
        .map(|(_, item)| match item {
            Item::Node(block) | Item::Shortcut { upper: block, .. } => block.nibbles().to_vec(),
            Item::Leaf(key) => key.nibbles().to_vec(),
        })
        .map(|nibbles| (nibbles.len(), nibbles))
        .collect();
    assert!(widths.is_sorted_by(|one, other| one < other));
}

#[test]
fn random_lists_of_calls() {
    let mut random = Random::new(2026);
    let mut met = Met::default();
    for _ in 0..120 {
        let count = 1 + random.below(60) as usize;
        let mut names = Names::cleared(count);
        let mut map = Map::new();
        let mut calls = Calls::new(Random::new(random.word()));
        for _ in 0..120 {
            let list = recover(&names.words).expect("well-formed").list;
            let call = calls.call(&list);
            step(&mut names.words, &mut map, &call, &mut met);
        }
    }
    assert!(met.short_inserts > 100, "{}", met.short_inserts);
    assert!(met.deletes_with_need > 20, "{}", met.deletes_with_need);
    assert!(met.short_deletes > 0, "{}", met.short_deletes);
    assert!(met.shortcuts > 500, "{}", met.shortcuts);
    assert!(met.most_needed > 4, "{}", met.most_needed);
}

/// Every key of one byte in and out again, in a pool with exactly the blocks that all of them take: a shortcut, a node of tier
/// 64, 16 nodes of tier 63 with 16 leaves each.
#[test]
fn all_keys_of_one_byte() {
    let mut names = Names::cleared(1 + 1 + 16 + 256);
    let (mut map, mut met) = (Map::new(), Met::default());
    let order: Vec<u8> = (0..=255u8).map(|n| n.wrapping_mul(37).wrapping_add(11)).collect();
    for byte in &order {
        let call = Call::Insert { key: vec![*byte], object: 1 };
        step(&mut names.words, &mut map, &call, &mut met);
    }
    assert_eq!((map.len(), names.used()), (256, 274));
    for byte in &order {
        step(&mut names.words, &mut map, &Call::Delete { key: vec![*byte] }, &mut met);
    }
    assert_eq!((met.short_inserts, met.short_deletes), (0, 0));
    names.assert_words(&words(274, None, &[]));
}
