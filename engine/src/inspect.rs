//! The tree for an inspector: its head and its nodes by their blocks. Nothing else uses it.

use crate::node::{slot_base, Node, MARKS, SLOTS, SLOT_BITS};
use crate::slab::Slab;
use crate::tree::Head;
use crate::word::{is_node, is_sibling, sibling_slot};
use crate::{Calls, Engine};

/// What stands for the word of a slot above a node, which differs from engine to engine.
pub const NODE_BELOW: u64 = u64::MAX - 1;

#[derive(Clone, Copy, Debug, PartialEq, Eq)]
pub enum HeadView {
    Empty,
    Bare { word: u64, marks: u8 },
    Node { shift: u32 },
}

/// A node: its block begins with `base`.
#[derive(Clone, Debug, PartialEq, Eq)]
pub struct NodeView {
    pub shift: u32,
    pub base: u64,
    pub marks: [u64; MARKS],
    /// The slots that are not empty.
    pub count: u32,
    pub slots: [u64; SLOTS as usize],
}

impl<S: Slab> Engine<S> {
    pub fn head(&self) -> HeadView {
        match self.tree.head {
            Head::Empty => HeadView::Empty,
            Head::Bare { word, marks } => HeadView::Bare { word, marks },
            Head::Node { shift, .. } => HeadView::Node { shift },
        }
    }

    /// All nodes, each before those below it and in index order. None if a node contradicts itself or
    /// its parent, or if others than these are in use.
    pub fn nodes(&self) -> Option<Vec<NodeView>> {
        let mut all = Vec::new();
        if let Head::Node { link, shift } = self.tree.head {
            let head = self.tree.slab.node(link);
            (head.parent.is_none() && self.visit(&mut all, head, shift, 0)).then_some(())?;
        }
        (all.len() == self.used()).then_some(all)
    }

    fn visit(&self, all: &mut Vec<NodeView>, node: &Node<S::Link>, shift: u32, base: u64) -> bool {
        all.push(view(node, shift, base));
        (0..SLOTS).filter(|slot| is_node(node.word(*slot))).all(|slot| {
            let below = self.tree.slab.node(S::link(node.word(slot)));
            // That the parent is this very node, by its address.
            let parent = below.parent.map(|parent| self.tree.slab.node(parent));
            let owned = parent.is_some_and(|parent| std::ptr::eq(parent, node));
            let base = slot_base(base, shift, slot);
            owned
                && u32::from(below.offset) == slot
                && shift > 0
                && self.visit(all, below, shift - SLOT_BITS, base)
        }) && masks_agree(node)
    }
}

fn view<L>(node: &Node<L>, shift: u32, base: u64) -> NodeView {
    let slots = node.slots.map(|word| if is_node(word) { NODE_BELOW } else { word });
    NodeView { shift, base, marks: node.marks, count: node.filled.count_ones(), slots }
}

/// The masks are those of the words, and a sibling stands for the entry that the masks give.
fn masks_agree<L>(node: &Node<L>) -> bool {
    (0..SLOTS).all(|slot| {
        let word = node.word(slot);
        let bit = |mask: u64| mask >> slot & 1 == 1;
        let same = !is_sibling(word) || node.first_slot(slot) == sibling_slot(word) as u32;
        bit(node.filled) == (word != 0) && bit(node.siblings) == is_sibling(word) && same
    })
}
