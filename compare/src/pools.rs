//! The pools that lists of calls start from: initialised, well-formed, damaged, not pools at all.

use reference::awkward::Commands as Source;
use reference::command::execute;
use reference::model::{Entry, RESERVED};
use reference::pool::{node_word, pool_length, sibling_word, State, MOST_NODES};
use reference::random::Random;
use xapool_host::layout::{
    count_place, filled_slots, mark_place, node_place, slot_place, ANCHOR_WORDS, NODE_WORDS, SLOTS,
    SLOT_FIELD,
};

/// Mostly a few nodes, so that stores fall on both sides of answer 11. The largest pools are rare: each
/// call on one takes reference and the comparison milliseconds.
fn random_nodes(random: &mut Random) -> usize {
    let most = match random.below(LARGEST_ONCE_IN) {
        0 | 1 => return MOST_NODES,
        2 => MOST_NODES as u64,
        3..=30 => 1000,
        31..=80 => 200,
        81..=340 => 45,
        _ => 14,
    };
    1 + random.below(most) as usize
}

pub fn random_words(random: &mut Random, source: &mut Source) -> Vec<u64> {
    let nodes = random_nodes(random);
    match random.below(32) {
        0 => vec![0; odd_length(random, nodes)],
        1 => vec![0; pool_length(nodes)],
        2 => (0..pool_length(nodes)).map(|_| random.word()).collect(),
        3..=10 => {
            let mut words = well_formed(random, source, nodes);
            damage(random, &mut words);
            words
        }
        11..=20 => well_formed(random, source, nodes),
        21..=23 => corner(random, nodes),
        _ => State::empty(nodes).words(),
    }
}

/// A length that no pool has, or (at times) has.
pub fn odd_length(random: &mut Random, nodes: usize) -> usize {
    match random.below(6) {
        0 => 0,
        1 => 4,
        2 => pool_length(1) - 1,
        3 if random.one_in(8) => pool_length(MOST_NODES + 1),
        4 => pool_length(nodes) + 1,
        _ => random.below(300) as usize,
    }
}

/// Words that some list prescribes, under a random numbering of nodes.
pub fn well_formed(random: &mut Random, source: &mut Source, nodes: usize) -> Vec<u64> {
    let mut state = State::empty(nodes);
    let most = if random.one_in(16) { 200 } else { 25 };
    for _ in 0..=random.below(most) {
        state = execute(&state, source.command()).state;
    }
    shuffle(random, &mut state.places);
    state.words()
}

/// What random commands seldom leave: an entry or a reservation as head, or entries of order 63.
pub fn corner(random: &mut Random, nodes: usize) -> Vec<u64> {
    let which = random.below(10);
    let mut entry = |base, order| {
        let (word, marks) = (2 * random.below(100) + 1, random.below(8) as u8);
        Entry { base, order, word, marks }
    };
    let list = match which {
        0..=2 => vec![entry(0, 0)],
        3 => vec![entry(0, 63)],
        4 => vec![entry(1 << 63, 63)],
        5..=7 => vec![Entry::reservation(0)],
        _ => vec![entry(0, 63), entry(1 << 63, 63)],
    };
    let state = State::empty(nodes).change_to(list);
    state.expect("these need one node at most").words()
}

pub fn shuffle<T>(random: &mut Random, all: &mut [T]) {
    for last in (1..all.len()).rev() {
        all.swap(last, random.below(last as u64 + 1) as usize);
    }
}

const LARGEST_ONCE_IN: u64 = 1024;

/// The nodes that these words have room for.
fn nodes_of(words: &[u64]) -> usize {
    words.len() / NODE_WORDS
}

/// A wrong word or two, or a wrong filled count. Wrong words mostly have the filled counts that go
/// with them: else it would be the count that gives most of them away.
fn damage(random: &mut Random, words: &mut [u64]) {
    match random.below(16) {
        0..=2 => return miscount(random, words),
        3..=6 => misplace(random, words),
        _ => change(random, words),
    }
    if !random.one_in(4) {
        recount(words);
    }
}

/// Sets every filled count right.
pub fn recount(words: &mut [u64]) {
    for node in 0..nodes_of(words) {
        words[count_place(node)] = filled_slots(words, node);
    }
}

/// One filled count that is wrong: by one, by a slot filled or emptied without it, or by any number;
/// also of a free node.
fn miscount(random: &mut Random, words: &mut [u64]) {
    let node = some_node(random, words);
    let place = count_place(node);
    let (right, slot) = (words[place], slot_place(node, random.below(SLOTS as u64) as usize));
    match random.below(8) {
        0 | 1 => words[place] = right.wrapping_add(1),
        2 | 3 => words[place] = right.wrapping_sub(1),
        4 => words[slot] = if words[slot] == 0 { 2 * random.below(100) + 1 } else { 0 },
        5 => words[place] = random.below(SLOTS as u64 + 2),
        6 => words[place] = words[count_place(random.below(nodes_of(words) as u64) as usize)],
        _ => words[place] = right ^ 1 << random.below(64),
    }
}

/// The number of a node, mostly one in use.
fn some_node(random: &mut Random, words: &[u64]) -> usize {
    let nodes = nodes_of(words);
    let used: Vec<usize> = (0..nodes).filter(|node| words[node_place(*node)] > 0).collect();
    match used.len() as u64 {
        0 => random.below(nodes as u64) as usize,
        _ if random.one_in(8) => random.below(nodes as u64) as usize,
        count => used[random.below(count) as usize],
    }
}

/// Changes one word, at times two; mostly ones that are not 0.
fn change(random: &mut Random, words: &mut [u64]) {
    for _ in 0..=random.below(4) / 3 {
        let mut place = random.below(words.len() as u64) as usize;
        for _ in 0..200 {
            if words[place] != 0 {
                break;
            }
            place = (place + 1) % words.len();
        }
        words[place] = other_word(random, words, place);
    }
}

fn other_word(random: &mut Random, words: &[u64], place: usize) -> u64 {
    let nodes = nodes_of(words) as u64;
    match random.below(10) {
        0 => 0,
        8 => RESERVED,
        1 => words[place].wrapping_add(1),
        2 => words[place].wrapping_sub(1),
        3 => node_word(random.below(nodes + 2) as usize),
        4 => sibling_word(random.below(65) as usize),
        5 => 2 * random.below(100) + 1,
        6 => words[random.below(words.len() as u64) as usize],
        7 => words[place] ^ 1 << random.below(64),
        _ => random.word(),
    }
}

/// The word of a reservation in any place: the anchor, a node's first words, a slot of any shift, in
/// an entry's or a sibling's stead, in a free node; or a mark bit of a slot that is reserved.
fn misplace(random: &mut Random, words: &mut [u64]) {
    let reserved: Vec<usize> = (0..words.len()).filter(|at| words[*at] == RESERVED).collect();
    if !reserved.is_empty() && random.one_in(3) {
        return mark_reserved(random, words, &reserved);
    }
    let node = some_node(random, words);
    let from = node_place(node);
    let slots = slot_place(node, 0)..slot_place(node, SLOTS);
    let filled: Vec<usize> = slots.clone().filter(|at| words[*at] != 0).collect();
    let is_sibling = |at: &usize| words[*at] % 4 == 2 && words[*at] <= sibling_word(63);
    let siblings: Vec<usize> = (node_place(0)..words.len()).filter(is_sibling).collect();
    let mut of = |places: &[usize]| places[random.below(places.len() as u64) as usize];
    let (filled, sibling) =
        (of(&[&filled[..], &[1]].concat()), of(&[&siblings[..], &[1]].concat()));
    words[match random.below(9) {
        0 => 1,
        1 => random.below(4) as usize,
        2 => from + random.below(SLOT_FIELD as u64) as usize,
        3 | 4 => filled,
        5 | 6 => sibling,
        _ => slots.start + random.below(SLOTS as u64) as usize,
    }] = RESERVED;
}

/// One of the marks of a place that is reserved, with the anchor's: nothing else is wrong then.
fn mark_reserved(random: &mut Random, words: &mut [u64], reserved: &[usize]) {
    let place = reserved[random.below(reserved.len() as u64) as usize];
    let mark = random.below(3) as usize;
    words[2] |= 1 << mark;
    if let Some(after) = place.checked_sub(ANCHOR_WORDS) {
        let (node, field) = (after / NODE_WORDS, after % NODE_WORDS);
        words[mark_place(node, mark)] |= 1 << (field.saturating_sub(SLOT_FIELD));
    }
}
