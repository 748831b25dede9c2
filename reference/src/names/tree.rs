//! The tree that a list of keys prescribes: nodes, shortcuts and leaves.

use crate::names::keys::{Block, Key, List, NIBBLES};
use std::cmp::Reverse;
use std::collections::BTreeMap;

pub const SLOTS: usize = 16;

/// What takes a block of the pool, by what it is known by from one tree to the next.
#[derive(Clone, Debug, PartialEq, Eq, PartialOrd, Ord)]
pub enum Item {
    Node(Block),
    /// In place of the nodes from `upper` down to above `lower`, where the node is that it leads to.
    Shortcut {
        upper: Block,
        lower: Block,
    },
    Leaf(Key),
}

impl Item {
    /// Widest first, then lowest block; of a shortcut the upper end counts, and leaves come last.
    pub fn rank(&self) -> (Reverse<usize>, [u8; NIBBLES]) {
        match self {
            Item::Node(block) | Item::Shortcut { upper: block, .. } => {
                (Reverse(block.tier()), block.first())
            }
            Item::Leaf(key) => (Reverse(0), *key.nibbles()),
        }
    }
}

/// What an item holds.
#[derive(Clone, Debug, PartialEq, Eq)]
pub struct Contents {
    /// Of a leaf its object, of a node how many keys its block has, of a shortcut 0.
    pub value: u64,
    /// Where the slots lead: of a node 16, of a shortcut one, of a leaf none.
    pub slots: Vec<Option<Item>>,
}

/// A slot of a node, before runs of nodes become shortcuts.
#[derive(Clone, Debug, PartialEq, Eq)]
enum Slot {
    Empty,
    Leaf(Key),
    Node(Block),
}

/// The items of the tree with what they hold, and the root if there are keys.
#[derive(Clone, Debug, Default, PartialEq, Eq)]
pub struct Tree {
    pub root: Option<Item>,
    pub items: BTreeMap<Item, Contents>,
}

impl Tree {
    pub fn of(list: &List) -> Tree {
        let mut tree = Tree::default();
        let keys: Vec<Key> = list.keys().copied().collect();
        if !keys.is_empty() {
            tree.root = Some(tree.grow(&keys, Block::whole()));
        }
        for (key, object) in list {
            let contents = Contents { value: *object, slots: Vec::new() };
            tree.items.insert(Item::Leaf(*key), contents);
        }
        tree
    }

    /// What stands for a block with these keys, for which there is a node if none of the nodes above it is in a run that
    /// goes on to it: that node, or the shortcut in place of the run that begins with it.
    fn grow(&mut self, keys: &[Key], block: Block) -> Item {
        let mut lower = block.clone();
        while let Some(next) = only_node(&slots(keys, &lower)) {
            lower = next;
        }
        let node = self.grow_node(keys, lower.clone());
        if lower == block {
            return node;
        }
        let shortcut = Item::Shortcut { upper: block, lower };
        self.items.insert(shortcut.clone(), Contents { value: 0, slots: vec![Some(node)] });
        shortcut
    }

    /// The node of this block and all below it but the leaves.
    fn grow_node(&mut self, keys: &[Key], block: Block) -> Item {
        let below = slots(keys, &block).into_iter().map(|slot| match slot {
            Slot::Empty => None,
            Slot::Leaf(key) => Some(Item::Leaf(key)),
            Slot::Node(child) => Some(self.grow(within(keys, &child), child)),
        });
        let contents = Contents { value: keys.len() as u64, slots: below.collect() };
        let node = Item::Node(block);
        self.items.insert(node.clone(), contents);
        node
    }
}

/// Those of the ascending keys that the block holds.
fn within<'a>(keys: &'a [Key], block: &Block) -> &'a [Key] {
    let from = keys.partition_point(|key| *key.nibbles() < block.first());
    let count = keys[from..].partition_point(|key| block.holds(key));
    &keys[from..from + count]
}

/// The 16 slots of the node of this block, which holds exactly these keys. At most 16 keys are packed: all of them are
/// leaves, from slot 0 on. More are told apart by their nibble.
fn slots(keys: &[Key], block: &Block) -> Vec<Slot> {
    if keys.len() <= SLOTS {
        let packed = keys.iter().map(|key| Slot::Leaf(*key));
        return packed.chain(std::iter::repeat(Slot::Empty)).take(SLOTS).collect();
    }
    let by_nibble = (0..SLOTS as u8).map(|nibble| {
        let child = block.child(nibble);
        match within(keys, &child) {
            [] => Slot::Empty,
            [key] => Slot::Leaf(*key),
            _ => Slot::Node(child),
        }
    });
    by_nibble.collect()
}

/// The block that the only filled slot leads to, if only one is filled, and not with a leaf.
fn only_node(slots: &[Slot]) -> Option<Block> {
    let filled: Vec<&Slot> = slots.iter().filter(|slot| **slot != Slot::Empty).collect();
    match filled[..] {
        [Slot::Node(child)] => Some(child.clone()),
        _ => None,
    }
}
