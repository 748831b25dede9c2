//! The numbers of blocks and all words of a pool of names, worked out afresh from a list.

use crate::names::keys::{List, NIBBLES};
use crate::names::tree::{Contents, Item, Tree, SLOTS};
use std::collections::{BTreeMap, BTreeSet};

/// The words before the blocks: how many blocks there are, and the root.
pub const FIRST_WORDS: usize = 2;
pub const MOST_BLOCKS: usize = 16_384;

/// Fields of a block, counted from its first word.
pub const TIER_FIELD: usize = 0;
pub const LENGTH_FIELD: usize = 1;
pub const VALUE_FIELD: usize = 2;
pub const BASE_FIELDS: usize = 3;
pub const BASE_WORDS: usize = 5;
pub const SLOT_FIELDS: usize = BASE_FIELDS + BASE_WORDS;
pub const BLOCK_WORDS: usize = SLOT_FIELDS + SLOTS;

/// N, if a pool of N blocks has this length and N is allowed.
pub fn block_count(length: usize) -> Option<usize> {
    (1..=MOST_BLOCKS).find(|count| pool_length(*count) == length)
}

pub const fn pool_length(count: usize) -> usize {
    FIRST_WORDS + BLOCK_WORDS * count
}

/// The place of the first word of block number `number`.
pub fn block_place(number: usize) -> usize {
    FIRST_WORDS + BLOCK_WORDS * number
}

/// A list and what stands at each block number: an item of its tree, or nothing (a free block).
#[derive(Clone, Debug, PartialEq, Eq)]
pub struct State {
    pub list: List,
    pub places: Vec<Option<Item>>,
}

impl State {
    /// What clear leaves: no keys, all blocks free.
    pub fn empty(count: usize) -> State {
        State { list: List::new(), places: vec![None; count] }
    }

    pub fn free_numbers(&self) -> Vec<usize> {
        (0..self.places.len()).filter(|number| self.places[*number].is_none()).collect()
    }

    /// The items of the new list's tree that the old one lacked, in the order in which they take their numbers.
    fn new_items(&self, tree: &Tree) -> Vec<Item> {
        let before: BTreeSet<&Item> = self.places.iter().flatten().collect();
        let lacked = tree.items.keys().filter(|item| !before.contains(item));
        let mut new: Vec<Item> = lacked.cloned().collect();
        new.sort_by_key(Item::rank);
        new
    }

    /// How many blocks the change to this list needs.
    pub fn needed(&self, list: &List) -> usize {
        self.new_items(&Tree::of(list)).len()
    }

    /// The state with the new list; none if it needs more blocks than are free. New items go to the lowest numbers free
    /// before; items that stay keep their number; the others are freed.
    pub fn change_to(&self, list: List) -> Option<State> {
        let tree = Tree::of(&list);
        let new = self.new_items(&tree);
        let free = self.free_numbers();
        if new.len() > free.len() {
            return None;
        }
        let stays = |item: &Item| tree.items.contains_key(item);
        let mut places: Vec<Option<Item>> =
            self.places.iter().map(|place| place.clone().filter(stays)).collect();
        for (item, number) in new.into_iter().zip(free) {
            places[number] = Some(item);
        }
        Some(State { list, places })
    }

    /// The number of each item.
    pub fn numbers(&self) -> BTreeMap<&Item, usize> {
        let places = self.places.iter().enumerate();
        places.filter_map(|(number, place)| place.as_ref().map(|item| (item, number))).collect()
    }

    /// All words of the pool, by this list and numbering; free blocks are zero. Each item of the list's tree must have its
    /// number.
    pub fn words(&self) -> Vec<u64> {
        let tree = Tree::of(&self.list);
        let numbers = self.numbers();
        let link = |item: &Option<Item>| item.as_ref().map_or(0, |item| 1 + numbers[item] as u64);
        let mut words = vec![0; pool_length(self.places.len())];
        words[0] = self.places.len() as u64;
        words[1] = link(&tree.root);
        for (item, contents) in &tree.items {
            let from = block_place(numbers[item]);
            write_item(item, contents, link, &mut words[from..from + BLOCK_WORDS]);
        }
        words
    }
}

fn write_item(
    item: &Item,
    contents: &Contents,
    link: impl Fn(&Option<Item>) -> u64,
    fields: &mut [u64],
) {
    let (tier, length, first) = match item {
        Item::Node(block) => (block.tier(), 0, block.first()),
        Item::Shortcut { upper, lower } => {
            (lower.tier(), upper.tier() - lower.tier(), lower.first())
        }
        Item::Leaf(key) => (0, 0, *key.nibbles()),
    };
    fields[TIER_FIELD] = tier as u64 + 1;
    fields[LENGTH_FIELD] = length as u64;
    fields[VALUE_FIELD] = contents.value;
    fields[BASE_FIELDS..SLOT_FIELDS].copy_from_slice(&base_words(&first));
    for (slot, below) in contents.slots.iter().enumerate() {
        fields[SLOT_FIELDS + slot] = link(below);
    }
}

/// A number of 66 nibbles as five words, the lowest first.
pub fn base_words(nibbles: &[u8; NIBBLES]) -> [u64; BASE_WORDS] {
    let mut words = [0; BASE_WORDS];
    for (power, nibble) in nibbles.iter().rev().enumerate() {
        words[power / 16] |= u64::from(*nibble) << (4 * (power % 16));
    }
    words
}

/// The 66 lowest nibbles of five words.
pub fn base_nibbles(words: &[u64]) -> [u8; NIBBLES] {
    let mut nibbles = [0; NIBBLES];
    for (power, nibble) in nibbles.iter_mut().rev().enumerate() {
        *nibble = (words[power / 16] >> (4 * (power % 16)) & 15) as u8;
    }
    nibbles
}
