//! Mark and unmark, and how marks climb: a slot above a node has the marks of the slots in it.

use crate::node::MARKS;
use crate::reply::{answers, Entry, Reply};
use crate::slab::Slab;
use crate::tree::{entry_at, is_present, Head, Tree, Way};
use crate::word::RESERVED;

impl<S: Slab> Tree<S> {
    pub fn remark(&mut self, index: u64, mark: u8, set: bool) -> Reply {
        if usize::from(mark) >= MARKS {
            return Reply::only(answers::BAD_MARK);
        }
        let change = |marks: u8| if set { marks | 1 << mark } else { marks & !(1 << mark) };
        match self.way_to(index) {
            Way::Bare { word, marks } if word != RESERVED => {
                let marks = change(marks);
                self.head = Head::Bare { word, marks };
                Reply::giving(Entry { base: 0, order: 0, word, marks })
            }
            Way::Ends { seat, word, .. } if is_present(word) => {
                let (slot, entry) = entry_at(self.slab.node(seat.link), seat, index);
                if set {
                    self.set_mark(seat.link, slot, mark);
                } else {
                    self.clear_mark(seat.link, slot, mark);
                }
                Reply::giving(Entry { marks: change(entry.marks), ..entry })
            }
            _ => Reply::only(answers::ABSENT),
        }
    }

    /// Sets the mark of a slot and of the slots above it.
    pub fn set_mark(&mut self, mut link: S::Link, mut slot: u32, mark: u8) {
        loop {
            let node = self.slab.node_mut(link);
            let marks = &mut node.marks[usize::from(mark)];
            let before = *marks;
            *marks |= 1 << slot;
            // Where any slot had it, the slots above have it.
            match node.parent {
                Some(parent) if before == 0 => (link, slot) = (parent, node.offset.into()),
                _ => return,
            }
        }
    }

    /// Clears the mark of a slot, and of the slots above it up to a node that has the mark elsewhere.
    pub fn clear_mark(&mut self, mut link: S::Link, mut slot: u32, mark: u8) {
        loop {
            let node = self.slab.node_mut(link);
            let marks = &mut node.marks[usize::from(mark)];
            let before = *marks;
            *marks &= !(1 << slot);
            match node.parent {
                Some(parent) if before != 0 && *marks == 0 => {
                    (link, slot) = (parent, node.offset.into());
                }
                _ => return,
            }
        }
    }
}
