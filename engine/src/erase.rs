//! Erase: the entry goes, then nodes that nothing is left in, then heads that are too high.

use crate::node::{row, SLOT_BITS};
use crate::reply::{answers, Entry, Reply};
use crate::slab::Slab;
use crate::tree::{entry_at, Head, Seat, Tree, Way};
use crate::word::is_node;

impl<S: Slab> Tree<S> {
    pub fn erase(&mut self, index: u64) -> Reply {
        match self.way_to(index) {
            Way::Bare { word, marks } => {
                self.head = Head::Empty;
                Reply::giving(Entry { base: 0, order: 0, word, marks })
            }
            Way::Ends { seat, word, .. } if word != 0 => {
                let (slot, entry) = entry_at(self.slab.node(seat.link), seat, index);
                self.remove(Seat { slot, ..seat }, entry.marks);
                self.shrink();
                Reply::giving(entry)
            }
            _ => Reply::only(answers::ABSENT),
        }
    }

    /// Empties the slots of an entry with these marks, and frees nodes up to one that is not empty.
    fn remove(&mut self, seat: Seat<S::Link>, marks: u8) {
        let node = self.slab.node_mut(seat.link);
        let slots = row(seat.slot, node.width(seat.slot));
        node.siblings &= !slots;
        let mut rest = slots;
        while rest != 0 {
            node.put(rest.trailing_zeros(), 0);
            rest &= rest - 1;
        }
        if node.filled != slots {
            node.filled &= !slots;
            return self.clear_marks(seat.link, seat.slot, marks);
        }
        self.drop_node(seat.link, marks);
    }

    fn clear_marks(&mut self, link: S::Link, slot: u32, marks: u8) {
        if marks != 0 {
            (0..3)
                .filter(|mark| marks >> mark & 1 == 1)
                .for_each(|mark| self.clear_mark(link, slot, mark));
        }
    }

    /// Frees a node whose only entry went, and its slot above.
    fn drop_node(&mut self, mut link: S::Link, marks: u8) {
        loop {
            let node = self.slab.node_mut(link);
            let (parent, offset) = (node.parent.take(), u32::from(node.offset));
            (node.filled, node.marks, node.offset) = (0, [0; 3], 0);
            self.slab.give_back(link);
            let Some(above) = parent else {
                self.head = Head::Empty;
                return;
            };
            let node = self.slab.node_mut(above);
            node.put(offset, 0);
            if node.filled != 1 << offset {
                node.filled &= !(1 << offset);
                return self.clear_marks(above, offset, marks);
            }
            link = above;
        }
    }

    /// A head whose slot 0 alone is filled goes where a node or, at shift 0, an entry is in it.
    fn shrink(&mut self) {
        while let Head::Node { link, shift } = self.head {
            let node = self.slab.node_mut(link);
            let word = node.slots[0];
            if node.filled != 1 || !(is_node(word) || shift == 0) {
                return;
            }
            let marks = node.all_marks();
            (node.slots[0], node.filled, node.marks) = (0, 0, [0; 3]);
            self.slab.give_back(link);
            self.head = if is_node(word) {
                let below = S::link(word);
                self.slab.node_mut(below).parent = None;
                Head::Node { link: below, shift: shift - SLOT_BITS }
            } else {
                Head::Bare { word, marks }
            };
        }
    }
}
