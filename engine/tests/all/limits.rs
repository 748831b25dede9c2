//! Both sides of each limit, with its figures and not by the engine's own constants.

use crate::helpers::{batch_of, outcome, Both};
use engine::{Calls, RawEngine, SafeEngine, MOST_BATCH_BYTES, MOST_NODES, REPLY_BYTES};
use reference::batch::Command;

#[test]
fn limits_are_those_of_reference() {
    assert_eq!((MOST_NODES, MOST_BATCH_BYTES), (16_384, 32_768));
    assert_eq!(MOST_NODES, reference::pool::MOST_NODES);
    assert_eq!(MOST_BATCH_BYTES, reference::batch::MOST_BATCH_BYTES);
}

/// What answer 1 is for a pool.
#[test]
fn nodes_are_as_many_as_a_pool_may_have() {
    for nodes in [0, 16_385, usize::MAX] {
        assert!(SafeEngine::new(nodes).is_none() && RawEngine::new(nodes).is_none());
    }
    for nodes in [1, 1000, 1001, 16_384] {
        let (safe, raw) = (SafeEngine::new(nodes), RawEngine::new(nodes));
        assert!(safe.is_some_and(|safe| safe.used() == 0) && raw.is_some());
    }
}

/// Loads of 11 bytes and marks of 12.
fn loads_and_marks(loads: usize, marks: usize) -> Vec<u8> {
    let mut commands = vec![Command::Load { index: 1 }; loads];
    commands.extend(vec![Command::Mark { index: 0, mark: 0 }; marks]);
    batch_of(&commands)
}

#[test]
fn batches_of_32768_bytes_and_one_more() {
    let mut both = Both::new(1);
    for (loads, marks, bytes) in [(742, 2, 8186), (735, 9, 8193), (2968, 10, 32_768)] {
        let batch = loads_and_marks(loads, marks);
        assert_eq!(batch.len(), bytes);
        let commands = loads + marks;
        let (done, _) = both.run(&batch, REPLY_BYTES * commands);
        assert_eq!(done, outcome(0, commands as u64));
    }
    // Whole records, and bad ones from the first on: the place is the same.
    let long = loads_and_marks(2967, 11);
    assert_eq!(long.len(), 32_769);
    for batch in [long, [loads_and_marks(2968, 10), vec![2]].concat(), vec![0; 40_000]] {
        let (refused, space) = both.run(&batch, REPLY_BYTES * 2979);
        assert_eq!(refused, outcome(3, 32_768));
        assert!(space.iter().all(|byte| *byte == 0xAA));
    }
}

/// One entry in each of 16,126 nodes of shift 0, under 252 of shift 6, 4 of shift 12 and the head.
const LEAVES: u64 = 16_126;

#[test]
fn all_of_16384_nodes_are_taken() {
    let store = |leaf: u64| Command::Store { index: 64 * leaf, order: 0, word: 2 * leaf + 1 };
    let mut both = Both::new(16_384);
    let stores: Vec<Command> = (0..LEAVES).map(store).collect();
    for stores in stores.chunks(1638) {
        let (done, _) = both.run(&batch_of(stores), REPLY_BYTES * stores.len());
        assert_eq!(done, outcome(0, stores.len() as u64));
    }
    assert_eq!(both.used(), 16_383);
    assert_eq!(both.reply(store(LEAVES)).answer, 0);
    assert_eq!(both.used(), 16_384);
    assert_eq!(both.reply(store(LEAVES + 1)).answer, 11);
    assert_eq!(both.reply(Command::Erase { index: 64 * 5000 }).word, 10_001);
    assert_eq!(both.reply(store(LEAVES + 1)).answer, 0);
    assert_eq!(both.reply(Command::Load { index: 64 * (LEAVES + 1) }).count, 4);
    assert_eq!((both.tree().1.len(), both.used()), (16_384, 16_384));
}
