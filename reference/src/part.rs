//! The part of the pool a command may write, as a predicate of word places.

use crate::command::Done;
use crate::pool::{State, ANCHOR_WORDS, NODE_WORDS};
use crate::tree::{head, Head, Node};
use std::collections::BTreeSet;

/// The anchor and some nodes, or nothing.
#[derive(Clone, Debug, PartialEq, Eq)]
pub struct Part {
    anchor: bool,
    numbers: BTreeSet<usize>,
}

impl Part {
    /// The part that the command may write which leads from `before` to `done`.
    pub fn of(before: &State, done: &Done) -> Part {
        let Some(range) = done.written else {
            return Part { anchor: false, numbers: BTreeSet::new() };
        };
        let heads = [head(&before.list), head(&done.state.list)];
        let named = |node: Node| heads.contains(&Head::Node(node)) || node.range().meets(range);
        let numbers = (0..before.places.len()).filter(|number| {
            let (old, new) = (before.places[*number], done.state.places[*number]);
            old != new || old.is_some_and(named)
        });
        Part { anchor: true, numbers: numbers.collect() }
    }

    pub fn contains(&self, place: usize) -> bool {
        if place < ANCHOR_WORDS {
            return self.anchor;
        }
        self.numbers.contains(&((place - ANCHOR_WORDS) / NODE_WORDS))
    }
}
