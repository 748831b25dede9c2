//! Every single-word change of some well-formed pools, through check.

use crate::lend::Call;
use crate::list::CallList;
use crate::pools::{recount, well_formed};
use reference::awkward::Commands as Source;
use reference::batch::Command;
use reference::command::execute;
use reference::model::RESERVED;
use reference::pool::{node_word, sibling_word, State};
use reference::random::Random;
use xapool_host::layout::{slot_place, ANCHOR_WORDS, NODE_WORDS, SLOT_FIELD};

const LAST: u64 = u64::MAX;

fn store(index: u64, order: u8, word: u64) -> Command {
    Command::Store { index, order, word }
}

fn mark(index: u64, mark: u8) -> Command {
    Command::Mark { index, mark }
}

fn reserve(index: u64) -> Command {
    Command::Reserve { index }
}

fn built(nodes: usize, commands: &[Command]) -> Vec<u64> {
    let start = State::empty(nodes);
    let after = |state: State, command: &Command| execute(&state, *command).state;
    commands.iter().fold(start, after).words()
}

/// Pools with each kind of thing in them: no node, siblings, marks, the widest and the narrowest
/// nodes, runs at the end of all indices, reservations, any numbering.
fn pools() -> Vec<Vec<u64>> {
    let mut random = Random::new(1);
    let mut source = Source::new(Random::new(2));
    vec![
        built(1, &[]),
        built(2, &[store(0, 0, 3), mark(0, 1)]),
        built(4, &[store(0, 0, 3), store(64, 0, 5), mark(64, 0)]),
        built(2, &[store(8, 3, 3), store(32, 5, 8), store(1, 0, 4), mark(13, 2)]),
        built(3, &[store(0, 6, 3), store(4095, 0, 7), mark(0, 0), mark(4095, 1)]),
        built(22, &[store(0, 0, 3), store(LAST, 0, 9), mark(LAST, 2)]),
        built(14, &[store(1 << 63, 63, 3), store(0, 60, 5), store(1 << 62, 0, 8), mark(1, 0)]),
        built(2, &[reserve(0)]),
        built(2, &[reserve(0), reserve(5), store(6, 0, 3), mark(6, 0), store(8, 3, 7)]),
        built(4, &[reserve(63), store(64, 6, 5), reserve(4095), mark(64, 2)]),
        built(12, &[reserve(LAST), store(0, 60, 5)]),
        well_formed(&mut random, &mut source, 12),
    ]
}

/// What a word is changed to: 0, a little more or less, words of nodes (one that there is, one past
/// the last), of siblings, of entries, of a reservation, and one with its highest bit changed.
fn changes(word: u64, place: usize, nodes: usize) -> Vec<u64> {
    let slot = place.saturating_sub(slot_place(0, 0)) % NODE_WORDS;
    let node_words = [nodes / 2, nodes].map(node_word);
    let siblings = [0, slot.saturating_sub(1)].map(sibling_word);
    let mut all = vec![0, word.wrapping_add(1), word.wrapping_sub(1), 1, 4, word ^ 1 << 63];
    all.push(RESERVED);
    all.extend(node_words.into_iter().chain(siblings));
    all.retain(|change| *change != word);
    all
}

/// Every change, as a check of the changed pool. Where it fills or empties a slot, the pool has the
/// filled count that goes with it; for one word that fills it and for 0 also the old count.
pub fn lists() -> impl Iterator<Item = CallList> {
    let check = |words| CallList { words, calls: vec![Call::Check] };
    pools().into_iter().flat_map(changed).map(check)
}

/// The pool with one word changed, in every way.
fn changed(pool: Vec<u64>) -> impl Iterator<Item = Vec<u64>> {
    let nodes = pool.len() / NODE_WORDS;
    let all: Vec<(usize, u64)> = (0..pool.len())
        .flat_map(|place| {
            changes(pool[place], place, nodes).into_iter().map(move |word| (place, word))
        })
        .collect();
    all.into_iter().flat_map(move |(place, word)| {
        let mut words = pool.clone();
        words[place] = word;
        let same_count = (pool[place] == 0) == (word == 0) || !is_slot(place);
        if same_count {
            return vec![words];
        }
        let mut counted = words.clone();
        recount(&mut counted);
        let plain = [0, 1].contains(&word).then_some(words);
        std::iter::once(counted).chain(plain).collect()
    })
}

fn is_slot(place: usize) -> bool {
    place.checked_sub(ANCHOR_WORDS).is_some_and(|after| after % NODE_WORDS >= SLOT_FIELD)
}
