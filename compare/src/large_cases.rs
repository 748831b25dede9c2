//! The largest pool (P8): 16,384 nodes, all but one of them in use, against reference. Few cases, since
//! each call takes reference a second or so.

use crate::cases::{records, store, Case};
use crate::lend::Call;
use crate::list::CallList;
use crate::prepares::Preparing;
use reference::model::Entry;
use reference::pool::{node_word, State, MOST_NODES};
use xapool_host::layout::{count_place, slot_place};
use xapool_host::Command;

/// One entry in each of 16,126 nodes of shift 0, under 252 of shift 6, 4 of shift 12 and the head: 16,383.
const LEAVES: u64 = 16_126;

pub fn large_cases() -> Vec<Case> {
    let words = nearly_full();
    let mut wrong_count = words.clone();
    wrong_count[count_place(MOST_NODES - 2)] += 1;
    let mut no_such_node = words.clone();
    no_such_node[slot_place(0, 0)] = node_word(MOST_NODES);
    let check = |words| CallList { words, calls: vec![Call::Check] }.difference(None);
    let prepare = |words: &[u64], command| {
        let (words, record) = (words.to_vec(), records(&[command]));
        Preparing { words, record, seed: 1 }.difference(None)
    };
    let (last, gone) = (store(64 * LEAVES, 3), Command::Erase { index: 64 * 5000 });
    vec![
        ("16,384 nodes, the last one prepared", prepare(&words, last)),
        ("16,384 nodes, one of them freed by a script", prepare(&words, gone)),
        ("16,384 nodes against reference", last_node(words)),
        ("16,384 nodes, a wrong count", check(wrong_count)),
        ("16,384 nodes, the word of node 16,384", check(no_such_node)),
    ]
}

fn nearly_full() -> Vec<u64> {
    let entry =
        |leaf| Entry { base: 64 * leaf, order: 0, word: 2 * leaf + 1, marks: (leaf % 8) as u8 };
    let state = State::empty(MOST_NODES).change_to((0..LEAVES).map(entry).collect());
    state.expect("16,383 nodes").words()
}

/// The last free node, number 16,383, is taken; then none is left, until an entry goes.
fn last_node(words: Vec<u64>) -> Option<String> {
    let next = |leaf: u64| store(64 * leaf, 3);
    let commands = [
        next(LEAVES),
        Command::Load { index: 64 * LEAVES },
        Command::Mark { index: 64 * LEAVES, mark: 2 },
        next(LEAVES + 1),
        Command::Erase { index: 64 * 5000 },
        next(LEAVES + 1),
        Command::Find { first: 64 * LEAVES, last: u64::MAX, filter: 2, budget: 99 },
    ];
    let run = Call::Run { batch: records(&commands), reply: 24 * commands.len() };
    let all = Call::List { first: 0, last: u64::MAX, buffer: 21 * (LEAVES as usize + 1) };
    CallList { words, calls: vec![Call::Check, run, all] }.difference(None)
}
