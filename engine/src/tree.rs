//! The tree, its head, and the way down to an index.

use crate::node::{block_of, slot_base, slot_of, Node, SLOT_BITS};
use crate::reply::{answers, Entry, Reply};
use crate::slab::Slab;
use crate::word::{is_node, is_sibling, sibling_slot, RESERVED};

#[derive(Clone, Copy)]
pub enum Head<L> {
    Empty,
    /// An entry at index 0, or that index reserved, and no node.
    Bare {
        word: u64,
        marks: u8,
    },
    Node {
        link: L,
        shift: u32,
    },
}

pub struct Tree<S: Slab> {
    pub slab: S,
    pub head: Head<S::Link>,
}

/// A slot of a node.
#[derive(Clone, Copy)]
pub struct Seat<L> {
    pub link: L,
    pub shift: u32,
    pub slot: u32,
}

/// Where the way down to an index ends.
pub enum Way<L> {
    /// There is no head, or the index is not in its block.
    Outside,
    /// At a head that is no node.
    Bare { word: u64, marks: u8 },
    /// At a slot that leads to no node, by so many nodes.
    Ends { seat: Seat<L>, word: u64, nodes: u32 },
}

impl<S: Slab> Tree<S> {
    pub fn new(nodes: usize) -> Tree<S> {
        Tree { slab: S::new(nodes), head: Head::Empty }
    }

    pub fn reset(&mut self) {
        self.slab.reset();
        self.head = Head::Empty;
    }

    #[inline]
    pub fn way_to(&self, index: u64) -> Way<S::Link> {
        match self.head {
            Head::Node { link, shift } if block_of(index, shift) == 0 => {
                self.way_below(link, shift, index)
            }
            Head::Bare { word, marks } if index == 0 => Way::Bare { word, marks },
            _ => Way::Outside,
        }
    }

    /// The way from a node to an index in its block.
    #[inline]
    fn way_below(&self, mut link: S::Link, mut shift: u32, index: u64) -> Way<S::Link> {
        let mut nodes = 1;
        loop {
            let slot = slot_of(index, shift);
            let word = self.slab.node(link).word(slot);
            if !is_node(word) {
                return Way::Ends { seat: Seat { link, shift, slot }, word, nodes };
            }
            (link, shift, nodes) = (S::link(word), shift - SLOT_BITS, nodes + 1);
        }
    }

    #[inline(always)]
    pub fn load(&self, index: u64) -> Reply {
        match self.way_to(index) {
            Way::Bare { word, marks } if word != RESERVED => {
                Reply::giving(Entry { base: 0, order: 0, word, marks })
            }
            Way::Ends { seat, word, nodes } if is_present(word) => {
                let (_, entry) = entry_at(self.slab.node(seat.link), seat, index);
                Reply::giving(entry).with_count(nodes)
            }
            Way::Ends { nodes, .. } => Reply::only(answers::ABSENT).with_count(nodes),
            _ => Reply::only(answers::ABSENT),
        }
    }
}

/// Whether a slot that leads to no node holds an entry or a sibling of one.
#[inline]
pub fn is_present(word: u64) -> bool {
    word != 0 && word != RESERVED
}

/// The first slot of the entry in a slot over an index, and the entry.
#[inline]
pub fn entry_at<L>(node: &Node<L>, seat: Seat<L>, index: u64) -> (u32, Entry) {
    let there = node.word(seat.slot);
    let slot = if is_sibling(there) { sibling_slot(there) as u32 } else { seat.slot };
    let entry = Entry {
        base: slot_base(index, seat.shift, slot),
        order: seat.shift + node.width(slot).trailing_zeros(),
        word: node.word(slot),
        marks: node.marks_of(slot),
    };
    (slot, entry)
}
