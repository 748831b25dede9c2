//! What the word of a slot says, by its low bits, as in XArray.

/// XArray's zero entry: the index is reserved.
pub const RESERVED: u64 = 4 * 257 + 2;

/// Words of nodes are larger than this, and those of siblings and of reserved indices are not.
const LARGEST_SPECIAL: u64 = 4096;

const KIND: u64 = 0b11;
const INTERNAL: u64 = 0b10;

/// A value is odd, a handle a multiple of 4 other than 0.
#[inline]
pub fn is_entry(word: u64) -> bool {
    word & KIND != INTERNAL && word != 0
}

#[inline]
pub fn is_node(word: u64) -> bool {
    word & KIND == INTERNAL && word > LARGEST_SPECIAL
}

#[inline]
pub fn is_sibling(word: u64) -> bool {
    word & KIND == INTERNAL && word < RESERVED
}

#[inline]
pub fn sibling(slot: usize) -> u64 {
    4 * slot as u64 + INTERNAL
}

/// The slot of the entry that a sibling stands for.
#[inline]
pub fn sibling_slot(word: u64) -> usize {
    (word >> 2) as usize
}

/// The word of a node by its number, as in a pool.
#[inline]
pub fn node(number: u32) -> u64 {
    LARGEST_SPECIAL + 4 * u64::from(number) + INTERNAL
}

#[inline]
pub fn node_number(word: u64) -> u32 {
    ((word - LARGEST_SPECIAL) >> 2) as u32
}
