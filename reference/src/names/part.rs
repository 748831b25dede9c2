//! The part of a pool of names that a call may write, as a predicate of word places.

use crate::answers::DONE;
use crate::names::command::{Call, Done};
use crate::names::keys::{Block, Key};
use crate::names::pool::{State, BLOCK_WORDS, FIRST_WORDS};
use crate::names::tree::Item;
use std::collections::BTreeSet;

/// Everything, or the words before the blocks and some blocks, or nothing.
#[derive(Clone, Debug, PartialEq, Eq)]
pub enum Part {
    All,
    Blocks(BTreeSet<usize>),
    Nothing,
}

impl Part {
    /// The part that the call may write which leads from `before` to `done`.
    pub fn of(before: &State, call: &Call, done: &Done) -> Part {
        let key = match call {
            Call::Clear => return Part::All,
            Call::Insert { key, .. } | Call::Delete { key } => Key::new(key),
            Call::Check | Call::Lookup { .. } => None,
        };
        let Some(key) = key.filter(|_| done.outcome.answer == u64::from(DONE)) else {
            return Part::Nothing;
        };
        let pairs = before.places.iter().zip(&done.state.places);
        let moved: Vec<&Option<Item>> = pairs
            .clone()
            .filter(|(old, new)| old != new)
            .flat_map(|(old, new)| [old, new])
            .collect();
        let named = |item: &Item| match item {
            Item::Node(block) => block.holds(&key) || is_under(&moved, block),
            Item::Leaf(leaf) => *leaf == key,
            Item::Shortcut { .. } => false,
        };
        let numbers = pairs
            .enumerate()
            .filter(|(_, (old, new))| old != new || old.as_ref().is_some_and(named));
        Part::Blocks(numbers.map(|(number, _)| number).collect())
    }

    pub fn contains(&self, place: usize) -> bool {
        match self {
            Part::All => true,
            Part::Nothing => false,
            Part::Blocks(_) if place < FIRST_WORDS => true,
            Part::Blocks(numbers) => numbers.contains(&((place - FIRST_WORDS) / BLOCK_WORDS)),
        }
    }
}

/// Whether a shortcut among these leads to the node of this block.
fn is_under(moved: &[&Option<Item>], block: &Block) -> bool {
    let leads = |item: &Item| matches!(item, Item::Shortcut { lower, .. } if lower == block);
    moved.iter().any(|item| item.as_ref().is_some_and(leads))
}
