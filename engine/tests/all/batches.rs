//! Batches as bytes: those of case 14, and each kind of bad record.

use crate::helpers::{batch_of, outcome, Both};
use engine::REPLY_BYTES;
use reference::batch::Command;

const STORE_64: [u8; 20] = [1, 0, 17, 0, 0, 0, 0, 0, 0, 0, 64, 0, 0, 0, 0, 0, 0, 0, 0, 5];

fn load(index: u64) -> Command {
    Command::Load { index }
}

#[test]
fn case_14_bytes() {
    let mut both = Both::new(3);
    let batch =
        [batch_of(&[Command::Store { index: 0, order: 0, word: 3 }]), STORE_64.to_vec()].concat();
    assert_eq!(both.run(&batch, 2 * REPLY_BYTES).0, outcome(0, 2));
    let (_, reply) = both.run(&[2, 0, 8, 0, 0, 0, 0, 0, 0, 0, 64], REPLY_BYTES + 5);
    let head = [0x82, 0, 21, 0, 0, 0, 0, 0, 0, 0, 0, 64];
    let rest = [0, 0, 0, 0, 0, 0, 0, 0, 5, 0, 0, 2];
    assert_eq!(reply[..12], head);
    assert_eq!(reply[12..24], rest);
    assert_eq!(reply[24..], [0xAA; 5]);
}

#[test]
fn an_empty_batch_gets_no_reply() {
    assert_eq!(Both::new(1).run(&[], 3), (outcome(0, 0), vec![0xAA; 3]));
}

#[test]
fn reply_space_too_short_runs_nothing() {
    let mut both = Both::new(1);
    let batch = batch_of(&[Command::Store { index: 0, order: 0, word: 3 }, load(0)]);
    let (refused, space) = both.run(&batch, 2 * REPLY_BYTES - 1);
    assert_eq!(refused, outcome(4, 2));
    assert!(space.iter().all(|byte| *byte == 0xAA));
    assert_eq!(both.reply(load(0)).answer, 10);
}

/// A good record, then one that is not: its place is the answer's number, and nothing runs.
#[test]
fn bad_records() {
    let good = batch_of(&[Command::Store { index: 0, order: 0, word: 3 }]);
    let mut bad: Vec<Vec<u8>> = vec![vec![2], vec![2, 0], vec![2, 0, 8], vec![2, 0, 8, 1, 2, 3]];
    bad.push(vec![0, 0, 0]);
    for tag in [0, 8, 9, 127, 129, 255] {
        let lengths = [8, 9, 17, 19].map(|length| [vec![tag, 0, length], vec![0; 19]].concat());
        bad.extend(lengths);
    }
    for (tag, length) in [(1, 17), (2, 8), (3, 8), (4, 9), (5, 9), (6, 19), (7, 8)] {
        for (high, low) in [(0, length - 1), (0, length + 1), (1, length), (0, 0)] {
            bad.push([vec![tag, high, low], vec![0; 300]].concat());
        }
        bad.push([vec![tag, 0, length], vec![0; usize::from(length) - 1]].concat());
    }
    for record in bad {
        let mut both = Both::new(1);
        let (refused, space) = both.run(&[&good[..], &record].concat(), 1000);
        assert_eq!(refused, outcome(3, good.len() as u64), "{record:?}");
        assert!(space.iter().all(|byte| *byte == 0xAA));
        assert_eq!(both.reply(load(0)).answer, 10);
    }
}
