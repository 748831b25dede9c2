//! From words back to the list and the numbering; the words are well-formed if these give them.

use crate::model::{is_entry_word, Entry, INDEX_END, RESERVED};
use crate::pool::{
    node_count, node_place, sibling_word, State, MARK_FIELDS, NODE_OFFSET, SHIFT_FIELD, SLOT_FIELDS,
};
use crate::tree::{nodes, Node, SLOTS, WIDEST_SHIFT};
use std::collections::BTreeSet;

/// The one list and numbering that prescribe all these words, if the pool is well-formed
/// (document 01: sound). Any words at all may be given.
pub fn recover(words: &[u64]) -> Option<State> {
    let mut walk = Walk { words, state: State::empty(node_count(words.len())?) };
    walk.head()?;
    let state = walk.state;
    let placed: BTreeSet<Node> = state.places.iter().copied().flatten().collect();
    (placed == nodes(&state.list) && state.words() == words).then_some(state)
}

/// A walk over the words from the head down, with what was read so far. It reads leniently:
/// `recover` then compares every word.
struct Walk<'a> {
    words: &'a [u64],
    state: State,
}

impl Walk<'_> {
    fn head(&mut self) -> Option<()> {
        let head = self.words[1];
        if head == 0 {
            return Some(());
        }
        if head == RESERVED {
            self.state.list.push(Entry::reservation(0));
            return Some(());
        }
        if is_entry_word(head) {
            let marks = (self.words[2] % 8) as u8;
            self.state.list.push(Entry { base: 0, order: 0, word: head, marks });
            return Some(());
        }
        let number = self.node_number(head)?;
        let shift = self.words[node_place(number) + SHIFT_FIELD].checked_sub(1)?;
        let known = shift <= u64::from(WIDEST_SHIFT) && shift % 6 == 0;
        known.then_some(())?;
        self.node(number, Node { shift: shift as u8, block: 0 })
    }

    /// The number in a node's word, if it is one of a node of this pool.
    fn node_number(&self, word: u64) -> Option<usize> {
        let number = (word / 4).checked_sub(NODE_OFFSET)?;
        let known = word % 4 == 2 && number < self.state.places.len() as u64;
        known.then_some(number as usize)
    }

    /// Reads a node and all below it. Each number is read once at most, and the shift falls with
    /// each call, so the walk is at most 11 deep and ends.
    fn node(&mut self, number: usize, node: Node) -> Option<()> {
        if self.state.places[number].is_some() {
            return None;
        }
        self.state.places[number] = Some(node);
        for slot in 0..SLOTS {
            let word = self.slot_word(number, slot);
            if is_entry_word(word) {
                let entry = self.entry(number, node, slot)?;
                self.state.list.push(entry);
            } else if word == RESERVED {
                self.state.list.push(reservation(node, slot)?);
            } else if word / 4 >= NODE_OFFSET {
                self.node(self.node_number(word)?, node.child(slot)?)?;
            }
        }
        Some(())
    }

    fn slot_word(&self, number: usize, slot: usize) -> u64 {
        self.words[node_place(number) + SLOT_FIELDS + slot]
    }

    /// The entry whose word is in this slot; its order is told by the siblings that follow.
    fn entry(&self, number: usize, node: Node, slot: usize) -> Option<Entry> {
        let siblings = (slot + 1..SLOTS)
            .take_while(|next| self.slot_word(number, *next) == sibling_word(slot))
            .count();
        let slots = siblings + 1;
        let order = node.shift + slots.ilog2() as u8;
        let start = node.slot_range(slot).start;
        let possible = slots.is_power_of_two()
            && slot.is_multiple_of(slots)
            && order < 64
            && start < INDEX_END;
        possible.then(|| Entry {
            base: start as u64,
            order,
            word: self.slot_word(number, slot),
            marks: self.slot_marks(number, slot),
        })
    }

    fn slot_marks(&self, number: usize, slot: usize) -> u8 {
        let place = node_place(number) + MARK_FIELDS;
        (0..3).map(|mark| ((self.words[place + mark] >> slot & 1) as u8) << mark).sum()
    }
}

/// The reservation in this slot. It has one index, as no slot of a higher shift has.
fn reservation(node: Node, slot: usize) -> Option<Entry> {
    let index = node.slot_range(slot).start as u64;
    (node.shift == 0).then(|| Entry::reservation(index))
}
