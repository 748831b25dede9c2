//! What a pool of names (P10) and a look-up in it are, by reference alone; they may be several.

use crate::name_keys::nibble;
use reference::answers::{ABSENT, BAD_KEY, DONE};
use reference::calls::Outcome;
use reference::names::command::Call;
use reference::names::keys::Key;
use reference::names::pool::{State, MOST_BLOCKS};
use reference::names::tree::{Contents, Item, Tree, SLOTS};

#[derive(Clone, Copy, Debug, PartialEq, Eq, PartialOrd, Ord)]
pub enum Kind {
    OneBlock,
    Hundreds,
    Largest,
    Empty,
    OneKey,
    PackedRoot,
    SpreadRoot,
    ShortcutRoot,
    ShortcutBelow,
    Sixteen,
    Seventeen,
    FullNode,
    OneByte,
    LongestKey,
    Share31,
    NoFree,
    OtherNumbers,
    Present,
    PresentBySlot,
    OneNibbleOff,
    Start,
    Longer,
    NoBytes,
    OneTooMany,
    FarTooMany,
    BadKeyOfNoPool,
}

pub const KINDS: [(Kind, &str); 26] = [
    (Kind::OneBlock, "N = 1"),
    (Kind::Hundreds, "N from 100 on"),
    (Kind::Largest, "N = 16,384"),
    (Kind::Empty, "no key"),
    (Kind::OneKey, "one key"),
    (Kind::PackedRoot, "a packed root"),
    (Kind::SpreadRoot, "a root by nibble"),
    (Kind::ShortcutRoot, "a shortcut as root"),
    (Kind::ShortcutBelow, "a shortcut below it"),
    (Kind::Sixteen, "a node of 16 keys"),
    (Kind::Seventeen, "a node of 17 keys"),
    (Kind::FullNode, "a node by nibble with all slots filled"),
    (Kind::OneByte, "a key of 1 byte"),
    (Kind::LongestKey, "a key of 32 bytes"),
    (Kind::Share31, "keys that share 31 bytes"),
    (Kind::NoFree, "no free block"),
    (Kind::OtherNumbers, "numbers unlike a new pool's"),
    (Kind::Present, "looked up: there"),
    (Kind::PresentBySlot, "there, in a node by nibble"),
    (Kind::OneNibbleOff, "one nibble off"),
    (Kind::Start, "the start of a key"),
    (Kind::Longer, "longer than a key"),
    (Kind::NoBytes, "no bytes"),
    (Kind::OneTooMany, "33 bytes"),
    (Kind::FarTooMany, "more than 33"),
    (Kind::BadKeyOfNoPool, "1 or 2, and the key bad"),
];

fn those(all: &[(Kind, bool)]) -> Vec<Kind> {
    all.iter().filter(|(_, so)| *so).map(|(kind, _)| *kind).collect()
}

/// The lengths of its shortcuts.
pub fn lengths(state: &State) -> Vec<usize> {
    let length = |item: &Item| match item {
        Item::Shortcut { upper, lower } => Some(upper.tier() - lower.tier()),
        _ => None,
    };
    state.places.iter().flatten().filter_map(length).collect()
}

/// Of a well-formed pool.
pub fn of_pool(state: &State) -> Vec<Kind> {
    let (tree, count) = (Tree::of(&state.list), state.places.len());
    let keys: Vec<Vec<u8>> = state.list.keys().map(Key::bytes).collect();
    let is_node = |item: &Item| matches!(item, Item::Node(_));
    let is_shortcut = |item: &Item| matches!(item, Item::Shortcut { .. });
    let nodes: Vec<&Contents> =
        tree.items.iter().filter(|(item, _)| is_node(item)).map(|(_, contents)| contents).collect();
    let of = |keys: u64| nodes.iter().any(|node| node.value == keys);
    let filled = |node: &Contents| node.slots.iter().flatten().count();
    let root = tree.root.as_ref();
    let root_node = root.filter(|root| is_node(root)).map(|root| tree.items[root].value);
    let share = |pair: &[Vec<u8>]| pair[1].len() == 32 && pair[0].get(..31) == pair[1].get(..31);
    let new = State::empty(count).change_to(state.list.clone());
    those(&[
        (Kind::OneBlock, count == 1),
        (Kind::Hundreds, (100..MOST_BLOCKS).contains(&count)),
        (Kind::Largest, count == MOST_BLOCKS),
        (Kind::Empty, keys.is_empty()),
        (Kind::OneKey, keys.len() == 1),
        (Kind::PackedRoot, root_node.is_some_and(|keys| keys <= SLOTS as u64)),
        (Kind::SpreadRoot, root_node.is_some_and(|keys| keys > SLOTS as u64)),
        (Kind::ShortcutRoot, root.is_some_and(is_shortcut)),
        (
            Kind::ShortcutBelow,
            tree.items.keys().any(|item| is_shortcut(item) && Some(item) != root),
        ),
        (Kind::Sixteen, of(16)),
        (Kind::Seventeen, of(17)),
        (Kind::FullNode, nodes.iter().any(|node| node.value > 16 && filled(node) == SLOTS)),
        (Kind::OneByte, keys.iter().any(|key| key.len() == 1)),
        (Kind::LongestKey, keys.iter().any(|key| key.len() == 32)),
        (Kind::Share31, keys.windows(2).any(share)),
        (Kind::NoFree, state.places.iter().all(Option::is_some)),
        (Kind::OtherNumbers, new.is_some_and(|new| new != *state)),
    ])
}

/// Whether the keys have the same length and differ in one nibble.
fn nearly(one: &[u8], other: &[u8]) -> bool {
    let differs = |at: &usize| nibble(one, *at) != nibble(other, *at);
    one.len() == other.len() && (0..2 * one.len()).filter(differs).count() == 1
}

/// Of a call that gave this on a pool with this state, if it is well-formed.
pub fn of_call(call: &Call, state: Option<&State>, outcome: Outcome) -> Vec<Kind> {
    let Call::Lookup { key } = call else { return Vec::new() };
    let gives = |answer: u8| outcome.answer == u64::from(answer);
    let bad = Key::new(key).is_none();
    let Some(state) = state else { return those(&[(Kind::BadKeyOfNoPool, bad)]) };
    let any = |holds: &dyn Fn(&[u8]) -> bool| {
        gives(ABSENT) && state.list.keys().any(|other| holds(&other.bytes()))
    };
    those(&[
        (Kind::Present, gives(DONE)),
        (Kind::PresentBySlot, gives(DONE) && state.list.len() > SLOTS),
        (Kind::OneNibbleOff, any(&|other| nearly(key, other))),
        (Kind::Start, any(&|other| other.starts_with(key))),
        (Kind::Longer, any(&|other| key.starts_with(other))),
        (Kind::NoBytes, gives(BAD_KEY) && key.is_empty()),
        (Kind::OneTooMany, gives(BAD_KEY) && key.len() == 33),
        (Kind::FarTooMany, gives(BAD_KEY) && key.len() > 33),
    ])
}
