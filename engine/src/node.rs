//! A node: 64 slots, their marks, and which of them are filled. Words alone would do, but a mask for
//! each kind of slot gives an entry's order and a find's steps without a look at the slots.

use crate::word::RESERVED;

pub const SLOTS: u32 = 64;
/// A slot of a node takes so many bits of an index.
pub const SLOT_BITS: u32 = 6;
pub const MARKS: usize = 3;
/// The filter of a find that takes every entry.
pub const ANY_ENTRY: u8 = 3;

/// The header fits one line of the cache, and so does each row of eight slots.
#[repr(C, align(64))]
#[derive(Clone)]
pub struct Node<L> {
    pub marks: [u64; MARKS],
    /// The slots that are not empty, and those of them that are siblings.
    pub filled: u64,
    pub siblings: u64,
    /// None in the head.
    pub parent: Option<L>,
    /// The slot in the parent.
    pub offset: u8,
    pub slots: [u64; SLOTS as usize],
}

impl<L> Node<L> {
    pub const fn empty() -> Node<L> {
        let slots = [0; SLOTS as usize];
        Node { marks: [0; MARKS], filled: 0, siblings: 0, parent: None, offset: 0, slots }
    }

    #[inline]
    pub fn word(&self, slot: u32) -> u64 {
        self.slots[(slot % SLOTS) as usize]
    }

    #[inline]
    pub fn put(&mut self, slot: u32, word: u64) {
        self.slots[(slot % SLOTS) as usize] = word;
    }

    /// How many slots the entry in this slot takes: siblings follow it.
    #[inline]
    pub fn width(&self, slot: u32) -> u32 {
        1 + (self.siblings >> slot >> 1).trailing_ones()
    }

    /// The slot itself or, if it is a sibling, the entry's.
    #[inline]
    pub fn first_slot(&self, slot: u32) -> u32 {
        match self.siblings >> slot & 1 {
            0 => slot,
            _ => SLOTS - 1 - (!self.siblings & up_to(slot)).leading_zeros(),
        }
    }

    /// The marks of a slot as a byte.
    #[inline]
    pub fn marks_of(&self, slot: u32) -> u8 {
        let bit = |mark: usize| (self.marks[mark] >> slot & 1) << mark;
        (bit(0) | bit(1) | bit(2)) as u8
    }

    /// The marks that any slot has, as a byte.
    #[inline]
    pub fn all_marks(&self) -> u8 {
        let bit = |mark: usize| u8::from(self.marks[mark] != 0) << mark;
        bit(0) | bit(1) | bit(2)
    }

    /// The first slot from this one on that a find with this filter does not pass; 64 if there is none.
    #[inline]
    pub fn next_stop(&self, filter: u8, from: u32) -> u32 {
        match self.marks.get(usize::from(filter)) {
            Some(marks) => (marks & from_on(from)).trailing_zeros(),
            None => self.next_entry(from),
        }
    }

    /// The first slot from this one on with an entry or a node.
    #[inline]
    fn next_entry(&self, from: u32) -> u32 {
        let mut stops = self.filled & !self.siblings & from_on(from);
        while stops != 0 && self.word(stops.trailing_zeros()) == RESERVED {
            stops &= stops - 1;
        }
        stops.trailing_zeros()
    }

    /// The steps of a find from a slot that is no sibling to another: an entry with its siblings is
    /// one, and so is any other slot.
    #[inline]
    pub fn steps(&self, from: u32, to: u32) -> u32 {
        match self.siblings {
            0 => to - from,
            siblings => to - from - (siblings & row(from, to - from)).count_ones(),
        }
    }

    /// The slot after so many steps from this one, which is no sibling; 64 past the last.
    pub fn after_steps(&self, from: u32, steps: u32) -> u32 {
        let mut starts = !self.siblings & !up_to(from);
        for _ in 1..steps {
            starts &= starts.wrapping_sub(1);
        }
        starts.trailing_zeros()
    }
}

/// The slots up to this one.
#[inline]
pub fn up_to(slot: u32) -> u64 {
    u64::MAX >> (SLOTS - 1 - slot)
}

/// The slots from this one on.
#[inline]
pub fn from_on(slot: u32) -> u64 {
    u64::MAX << slot
}

/// So many slots from this one on.
#[inline]
pub fn row(slot: u32, width: u32) -> u64 {
    match width {
        0 => 0,
        _ => up_to(width - 1) << slot,
    }
}

/// The slot towards an index in a node of this shift.
#[inline]
pub fn slot_of(index: u64, shift: u32) -> u32 {
    (index >> shift) as u32 % SLOTS
}

/// The number of the block around an index that a node of this shift covers. Two shifts, since 66
/// bits are more than a word has.
#[inline]
pub fn block_of(index: u64, shift: u32) -> u64 {
    index >> shift >> SLOT_BITS
}

/// The first index of a slot, in the node of this shift around an index.
#[inline]
pub fn slot_base(index: u64, shift: u32, slot: u32) -> u64 {
    (block_of(index, shift) << SLOT_BITS | u64::from(slot)) << shift
}
