//! Lists of calls made for finds that pass many slots of a node at once: their first, last and
//! budget lie where a row of such slots begins, ends or goes on. The same pools are listed.

use crate::batches::record;
use crate::indices::{any, first, in_gap, inside, last};
use crate::lend::Call;
use crate::list::CallList;
use crate::listings::listing_of;
use crate::pools::shuffle;
use crate::shapes::random_entries;
use reference::batch::{Command, MOST_BATCH_BYTES, REPLY_BYTES};
use reference::find::{find, ANY_ENTRY};
use reference::model::{self, covering, Entry};
use reference::pool::State;
use reference::random::Random;
use reference::tree::{head, nodes, Head, Tree, SLOTS};
use xapool_host::MOST_ORDER;

/// Finds in one call.
const FINDS: u64 = 60;

/// Listings one after the other.
const LISTINGS: u64 = 4;

/// A pool built by batches, finds, listings, some changes, and finds and listings again.
pub fn random_list(seed: u64) -> CallList {
    let mut random = Random::new(seed);
    let mut list = random_entries(&mut random);
    let spare = random.below(4) as usize;
    let words = State::empty(nodes(&list).len().max(1) + spare).words();
    let mut calls = batches(&building(&mut random, &list));
    calls.extend(looks(&mut random, &list));
    calls.extend(batches(&changes(&mut random, &mut list)));
    calls.extend(looks(&mut random, &list));
    CallList { words, calls }
}

/// Finds and listings of the pool with this list.
fn looks(random: &mut Random, list: &[Entry]) -> Vec<Call> {
    let mut calls = batches(&finds(random, list));
    calls.extend((0..LISTINGS).map(|_| listing_of(random, list)));
    calls
}

/// The stores and reserves, in any order, and then the marks.
fn building(random: &mut Random, list: &[Entry]) -> Vec<Command> {
    let mut commands = building_in_order(list);
    if random.one_in(2) {
        shuffle(random, &mut commands[..list.len()]);
    }
    commands
}

/// The same in index order.
pub fn building_in_order(list: &[Entry]) -> Vec<Command> {
    let stores = list.iter().map(|entry| store(*entry));
    stores.chain(list.iter().flat_map(|entry| marks(*entry))).collect()
}

/// The commands in as few runs as they fit, each with the reply space that it needs.
pub fn batches(commands: &[Command]) -> Vec<Call> {
    let mut all: Vec<(Vec<u8>, usize)> = Vec::new();
    for command in commands {
        let bytes = record(*command);
        match all.last_mut() {
            Some((batch, reply)) if batch.len() + bytes.len() <= MOST_BATCH_BYTES => {
                batch.extend(bytes);
                *reply += REPLY_BYTES;
            }
            _ => all.push((bytes, REPLY_BYTES)),
        }
    }
    all.into_iter().map(|(batch, reply)| Call::Run { batch, reply }).collect()
}

fn store(entry: Entry) -> Command {
    let Entry { base: index, order, word, .. } = entry;
    match entry.is_reservation() {
        true => Command::Reserve { index },
        false => Command::Store { index, order, word },
    }
}

fn marks(entry: Entry) -> impl Iterator<Item = Command> {
    let set = (0..3).filter(move |mark| entry.marks >> mark & 1 == 1);
    set.map(move |mark| Command::Mark { index: entry.base, mark })
}

/// Some marks, unmarks, erases, reserves and stores over entries, done to the list as well.
fn changes(random: &mut Random, list: &mut Vec<Entry>) -> Vec<Command> {
    let mut commands = Vec::new();
    for _ in 0..random.below(26) {
        let Some(entry) = any(random, list) else { break };
        let (index, mark) = (inside(random, entry), random.below(3) as u8);
        // A reservation has no marks to change.
        let which = if entry.is_reservation() { 2 + random.below(5) } else { random.below(7) };
        let (command, after) = match which {
            0 => (Command::Mark { index, mark }, model::mark(list, index, mark)),
            1 => (Command::Unmark { index, mark }, model::unmark(list, index, mark)),
            2 => (Command::Erase { index }, model::erase(list, index)),
            3 => match beside(random, list, entry) {
                Some(index) => (Command::Reserve { index }, model::reserve(list, index)),
                None => continue,
            },
            _ => {
                let (index, order, word) = store_over(random, entry, index);
                let store = Command::Store { index, order, word };
                (store, model::store(list, index, order, word))
            }
        };
        commands.push(command);
        *list = after;
    }
    commands
}

/// An index in the node of an entry that nothing covers, so that to reserve it needs no node.
fn beside(random: &mut Random, list: &[Entry], entry: Entry) -> Option<u64> {
    let index = entry.base ^ random.below(SLOTS as u64);
    let in_node = entry.order < 6 && matches!(head(list), Head::Node(_));
    (in_node && covering(list, index).is_none()).then_some(index)
}

/// Index, order and word of a store that replaces the entry and needs no node: into it, at its own
/// order, or at a higher one that is in the same node. The word is another or the same.
fn store_over(random: &mut Random, entry: Entry, index: u64) -> (u64, u8, u64) {
    let same = random.one_in(3) && !entry.is_reservation();
    let word = if same { entry.word } else { 2 * random.below(500) + 1 };
    let widest = (entry.order - entry.order % 6 + 5).min(MOST_ORDER);
    let order = match random.below(4) {
        0 | 1 => return (index, 0, word),
        2 => entry.order,
        _ => entry.order + random.below(u64::from(widest - entry.order) + 1) as u8,
    };
    (index >> order << order, order, word)
}

fn finds(random: &mut Random, list: &[Entry]) -> Vec<Command> {
    let tree = Tree::of(list);
    (0..FINDS).map(|_| one_find(random, &tree)).collect()
}

fn one_find(random: &mut Random, tree: &Tree) -> Command {
    let filter = random.below(u64::from(ANY_ENTRY) + 1) as u8;
    let first = match filter {
        ANY_ENTRY if random.one_in(2) => in_gap(random, tree.list),
        _ => first(random, tree.list),
    };
    let last = last(random, tree.list, first);
    let steps = find(tree, first, last, filter, u16::MAX).steps;
    let budget = match random.below(9) {
        0 => u16::MAX,
        1 => steps,
        2 => (steps - 1).max(1),
        3 => steps.saturating_add(1),
        4..=6 => 1 + random.below(u64::from(steps)) as u16,
        _ => 1 + random.below(90) as u16,
    };
    Command::Find { first, last, filter, budget }
}
