//! The pools and the bytes of preparings (P11): dense, sparse and full pools of any height, with entries of any order, marks
//! and reservations, and an entry as head; damaged ones; commands at their entries, and bytes that are no such record.

use crate::batches::record;
use crate::indices::{about, any, in_gap, inside};
use crate::pools::{corner, odd_length, random_words, shuffle, well_formed};
use crate::shapes::random_entries;
use reference::awkward::Commands as Source;
use reference::batch::{Command, MOST_BATCH_BYTES};
use reference::model::{self, covering, Entry};
use reference::pool::State;
use reference::random::Random;
use reference::recover::recover;
use reference::tree::nodes;

/// Words, and the bytes to prepare.
pub fn random_pair(random: &mut Random) -> (Vec<u64>, Vec<u8>) {
    let mut source = Source::new(Random::new(random.word()));
    let words = match random.below(32) {
        0 => vec![0; odd_length(random, 3)],
        1..=5 => random_words(random, &mut source),
        6 | 7 => {
            let nodes = 1 + random.below(22) as usize;
            corner(random, nodes)
        }
        8..=14 => {
            let nodes = if random.one_in(40) { 300 } else { 1 + random.below(30) as usize };
            well_formed(random, &mut source, nodes)
        }
        15..=21 => {
            let list = random_entries(random);
            words_of(random, list)
        }
        _ => {
            let list = tall(random);
            words_of(random, list)
        }
    };
    let list = recover(&words).map(|state| state.list);
    // Where it is no pool, often something is wrong with the bytes too.
    let times = if list.is_some() { 24 } else { 6 };
    let list = list.unwrap_or_default();
    let bytes = match random.below(times) {
        0 | 1 => no_record(random, &mut source),
        2 => record(looking(random)),
        3..=9 => record(changing(&mut source)),
        _ => record(aimed(random, &list)),
    };
    (words, bytes)
}

/// The words of a list, with no free node, few, or as many as any command needs, under any numbering.
fn words_of(random: &mut Random, list: Vec<Entry>) -> Vec<u64> {
    let spare = [0, random.below(4), random.below(12), 22][random.below(4) as usize];
    let count = (nodes(&list).len() + spare as usize).max(1);
    let mut state = State::empty(count).change_to(list).expect("nodes enough");
    shuffle(random, &mut state.places);
    state.words()
}

/// A few entries and reservations far apart, so that the head is of any height, and of another one when one of them goes.
fn tall(random: &mut Random) -> Vec<Entry> {
    let mut list = Vec::new();
    let most = [2, 5][random.below(2) as usize];
    for _ in 0..=random.below(most) {
        // The first often such that it is the head once the others go.
        let index = if list.is_empty() && random.one_in(2) { 0 } else { far(random) };
        if random.one_in(4) && covering(&list, index).is_none() {
            list = model::reserve(&list, index);
            continue;
        }
        let orders = [1, 1, 4, 9, 64][random.below(5) as usize];
        let order = if index == 0 && random.one_in(2) { 0 } else { random.below(orders) as u8 };
        let index = index >> order << order;
        list = model::store(&list, index, order, word(random));
        for mark in 0..3 {
            let marked = random.one_in(3) && !covering(&list, index).unwrap().is_reservation();
            list = if marked { model::mark(&list, index, mark) } else { list };
        }
    }
    list
}

/// An index that needs a head of any height, often one whose lower slots are all 0.
fn far(random: &mut Random) -> u64 {
    let shift = 6 * random.below(11);
    let top = match random.below(4) {
        0 => 1,
        1 if shift < 60 => 63,
        _ => random.below(64) % (1 << (64 - shift).min(6)),
    };
    let low = match random.below(4) {
        0 | 1 => 0,
        2 => u64::MAX,
        _ => random.word(),
    };
    top << shift | low & ((1 << shift) - 1)
}

fn word(random: &mut Random) -> u64 {
    match random.below(3) {
        0 => 4 * (1 + random.below(500)),
        1 => random.word() | 1,
        _ => 2 * random.below(500) + 1,
    }
}

fn looking(random: &mut Random) -> Command {
    let index = far(random);
    match random.below(2) {
        0 => Command::Load { index },
        _ => Command::Find { first: index, last: u64::MAX, filter: 3, budget: 9 },
    }
}

/// The next of the source's that can change a pool.
fn changing(source: &mut Source) -> Command {
    let looks = |command: &Command| matches!(command, Command::Load { .. } | Command::Find { .. });
    let mut all = std::iter::repeat_with(|| source.command());
    all.find(|command| !looks(command)).expect("there is no end to them")
}

/// A command at an entry of the list, beside one, or far from all.
fn aimed(random: &mut Random, list: &[Entry]) -> Command {
    let Some(entry) = any(random, list) else { return aimed(random, &[Entry::reservation(0)]) };
    if list.len() == 2 && random.one_in(4) {
        return Command::Erase { index: inside(random, list[1]) };
    }
    let index = match random.below(8) {
        // What decides how high the head is.
        0 => inside(random, list[list.len() - 1]),
        1..=4 => inside(random, entry),
        5 => about(random, entry),
        6 => in_gap(random, list),
        _ => far(random),
    };
    let mark = if random.one_in(8) { 3 + random.below(253) } else { random.below(3) } as u8;
    match random.below(20) {
        0..=3 => Command::Erase { index },
        4..=6 => Command::Mark { index, mark },
        7 | 8 => Command::Unmark { index, mark },
        9 | 10 => Command::Reserve { index },
        11 => Command::Reserve { index: entry.base ^ random.below(64) },
        12 => Command::Store { index: entry.base, order: entry.order, word: entry.word },
        13..=15 => {
            let order = (u64::from(entry.order) + random.below(14)).min(63) as u8;
            Command::Store { index: index >> order << order, order, word: word(random) }
        }
        16 | 17 => Command::Store { index, order: 0, word: word(random) },
        18 => {
            let order = random.below(64) as u8;
            Command::Store { index: index >> order << order, order, word: word(random) }
        }
        _ => {
            let order = [64, 255, 1, 6, random.below(256)][random.below(5) as usize] as u8;
            let word = [0, 2, 1030, 5, word(random)][random.below(5) as usize];
            Command::Store { index, order, word }
        }
    }
}

/// Bytes that are not the one record of a command that can change a pool, mostly nearly one.
fn no_record(random: &mut Random, source: &mut Source) -> Vec<u8> {
    let mut bytes = record(changing(source));
    let size = bytes.len() as u64;
    match random.below(16) {
        0 => bytes.clear(),
        1 | 2 => bytes.truncate(random.below(size) as usize),
        3 => bytes.extend(record(changing(source))),
        4 => bytes.extend(record(looking(random))),
        5 => bytes = [record(looking(random)), bytes].concat(),
        6 => bytes.push([0, 1, 7, random.word() as u8][random.below(4) as usize]),
        7 => bytes.extend(vec![0; random.below(30) as usize + 1]),
        8 => bytes[0] = [0, 8, 9, 48, 127, 128, 129, 131, 255][random.below(9) as usize],
        9 => bytes[0] = 1 + (bytes[0] + 1) % 7,
        10 => bytes[1] = 1 + random.below(255) as u8,
        11 => bytes[2] = bytes[2].wrapping_add([1, 255][random.below(2) as usize]),
        12 => {
            // As long as it says, and its tag's length is another.
            bytes[2] += 1;
            bytes.push(0);
        }
        13 => bytes = (0..random.below(40)).map(|_| random.word() as u8).collect(),
        14 => bytes = vec![1; MOST_BATCH_BYTES + 1 + random.below(9) as usize],
        _ => bytes.insert(random.below(size) as usize, random.word() as u8),
    }
    bytes
}
