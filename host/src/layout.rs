//! Where things stand among the words of a pool. The sizes stand here once for all tools in Rust;
//! the C header has them too, and reference/ its own. A number that no node has is of no place: the
//! last one, which no words have.

/// The words of the anchor.
pub const ANCHOR_WORDS: usize = 4;
/// The slots of a node.
pub const SLOTS: usize = 64;
/// A node's words, from its first on: the shift + 1, 0 in a free node.
pub const SHIFT_FIELD: usize = 0;
/// Its owner: 0 in the head, else 1 + 64 * parent + the slot there.
pub const OWNER_FIELD: usize = 1;
/// How many of its slots are not 0.
pub const COUNT_FIELD: usize = 2;
/// The first of its three mark words.
pub const MARK_FIELD: usize = 3;
/// The first of its slots; they are its last words.
pub const SLOT_FIELD: usize = 6;
/// The words of a node.
pub const NODE_WORDS: usize = SLOT_FIELD + SLOTS;
/// What is added to a node's number in its word.
pub const NODE_OFFSET: u64 = 1024;

/// The word of a reserved index, in its slot or as the head.
pub const RESERVED_WORD: u64 = 1030;

/// The place of the first word of a node.
#[must_use]
pub fn node_place(number: usize) -> usize {
    NODE_WORDS.saturating_mul(number).saturating_add(ANCHOR_WORDS)
}

/// The place of a node's owner word.
#[must_use]
pub fn owner_place(number: usize) -> usize {
    node_place(number).saturating_add(OWNER_FIELD)
}

/// The place of a node's filled count.
#[must_use]
pub fn count_place(number: usize) -> usize {
    node_place(number).saturating_add(COUNT_FIELD)
}

/// The place of the word of a node's mark, 0 to 2.
#[must_use]
pub fn mark_place(number: usize, mark: usize) -> usize {
    node_place(number).saturating_add(MARK_FIELD).saturating_add(mark)
}

/// The place of a slot of a node.
#[must_use]
pub fn slot_place(number: usize, slot: usize) -> usize {
    node_place(number).saturating_add(SLOT_FIELD).saturating_add(slot)
}

/// What a node's filled count is to be, by its slots; of a node that the words do not have, 0.
#[must_use]
pub fn filled_slots(words: &[u64], number: usize) -> u64 {
    let slots = words.get(slot_place(number, 0)..slot_place(number, SLOTS)).unwrap_or_default();
    slots.iter().map(|word| u64::from(*word != 0)).sum()
}

/// The word of a slot that follows the entry in this slot, 0 to 63.
#[must_use]
pub fn sibling_word(slot: usize) -> u64 {
    (slot as u64).wrapping_mul(4) | 2
}

/// The word of a slot that leads to this node.
#[must_use]
pub fn node_word(number: usize) -> u64 {
    NODE_OFFSET.wrapping_add(number as u64).wrapping_mul(4) | 2
}

/// A pool of names: the words before its blocks, how many blocks there are and the root.
pub const NAMES_ANCHOR_WORDS: usize = 2;
/// The slots of a block.
pub const BLOCK_SLOTS: usize = 16;
/// A block's words, from its first on: the tier + 1, 0 in a free block. Of a leaf it is 1, of a shortcut that of the
/// node it leads to.
pub const TIER_FIELD: usize = 0;
/// How many nodes a shortcut stands for; 0 in a node and a leaf.
pub const SKIP_FIELD: usize = 1;
/// Of a leaf its object, of a node the keys in its block, of a shortcut 0.
pub const VALUE_FIELD: usize = 2;
/// The first word of the base, the lowest: a leaf's key, else the first number of a node's block.
pub const BASE_FIELD: usize = 3;
/// The words of a base.
pub const BASE_WORDS: usize = 5;
/// The first of its slots, each 0 or 1 + the number of a block; they are its last words.
pub const BLOCK_SLOT_FIELD: usize = BASE_FIELD + BASE_WORDS;
/// The words of a block.
pub const BLOCK_WORDS: usize = BLOCK_SLOT_FIELD + BLOCK_SLOTS;
/// The tier of the node over all keys: a key's number has so many nibbles.
pub const ROOT_TIER: usize = 66;

/// The place of the first word of a block of a pool of names.
#[must_use]
pub fn block_place(number: usize) -> usize {
    BLOCK_WORDS.saturating_mul(number).saturating_add(NAMES_ANCHOR_WORDS)
}
