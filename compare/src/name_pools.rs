//! Well-formed pools of names (P10), by reference: after its own inserts and deletes, or of a list under any numbering.

use crate::name_keys::{keys, object, FAMILIES};
use crate::pools::shuffle;
use reference::names::command::{execute, Call};
use reference::names::keys::{Key, List};
use reference::names::pool::{State, MOST_BLOCKS};
use reference::names::random::Calls;
use reference::names::tree::Tree;
use reference::random::Random;

/// How large a pool is.
#[derive(Clone, Copy, Debug, PartialEq, Eq)]
enum Size {
    Small,
    Hundreds,
    Largest,
}

pub fn random_state(random: &mut Random) -> State {
    let size = match random.below(2400) {
        0 => Size::Largest,
        1..=40 => Size::Hundreds,
        _ => Size::Small,
    };
    match random.below(8) {
        0 if size == Size::Small => by_random_calls(random),
        1..=3 if size == Size::Small => {
            let list = random_list(random, size);
            by_inserts(random, &list)
        }
        _ => {
            let list = random_list(random, size);
            numbered(random, list, size)
        }
    }
}

/// Reference's own random calls, whatever they leave.
fn by_random_calls(random: &mut Random) -> State {
    let mut calls = Calls::new(Random::new(random.word()));
    let mut state = State::empty(1 + random.below(60) as usize);
    for _ in 0..random.below(80) {
        state = execute(&state, &calls.call(&state.list)).state;
    }
    state
}

fn random_list(random: &mut Random, size: Size) -> List {
    let family = FAMILIES[random.below(FAMILIES.len() as u64) as usize];
    let count = match size {
        Size::Small => [0, 1, 2, 5, 16, 17, 18, 24, 40][random.below(9) as usize],
        Size::Hundreds => 60 + random.below(200) as usize,
        Size::Largest => [0, 20, 300, 3000][random.below(4) as usize],
    };
    if count == 0 {
        return List::new();
    }
    let mut all = keys(random, family, count);
    // A pool of few keys has exactly so many.
    if count < 3 {
        all.truncate(count);
    }
    all.iter().filter_map(|key| Some((Key::new(key)?, object(random)))).collect()
}

/// How many blocks a list takes.
pub fn blocks(list: &List) -> usize {
    Tree::of(list).items.len()
}

fn spare(random: &mut Random, size: Size) -> usize {
    match size {
        Size::Largest => MOST_BLOCKS,
        _ => [0, 0, 1, 2, random.below(12) as usize][random.below(5) as usize],
    }
}

/// The list with the numbers that it gets in an empty pool, or any others.
fn numbered(random: &mut Random, list: List, size: Size) -> State {
    let count = (blocks(&list) + spare(random, size)).clamp(1, MOST_BLOCKS);
    let mut state = State::empty(count).change_to(list).expect("blocks enough");
    if random.one_in(2) {
        shuffle(random, &mut state.places);
    }
    state
}

/// Its keys inserted one after the other, some others between them and deleted again, as far as the blocks reach.
fn by_inserts(random: &mut Random, list: &List) -> State {
    let mut state = State::empty((blocks(list) + spare(random, Size::Small) + 1).max(1));
    let mut order: Vec<(&Key, &u64)> = list.iter().collect();
    shuffle(random, &mut order);
    for (key, object) in order {
        let key = key.bytes();
        state = execute(&state, &Call::Insert { key: key.clone(), object: *object }).state;
        if random.one_in(6) {
            state = execute(&state, &Call::Delete { key }).state;
        }
    }
    state
}
