//! Store and reserve. Whether there are nodes enough is known before anything is written.

use crate::node::{block_of, row, slot_of, Node, SLOT_BITS};
use crate::reply::{answers, Entry, Reply};
use crate::slab::Slab;
use crate::tree::{entry_at, Head, Seat, Tree, Way};
use crate::word::{is_entry, is_node, sibling, RESERVED};

/// Mark 2 says that an entry was compared; a store does not hand it on.
const MATCHED: u8 = 2;
const HANDED_ON: u8 = 0b011;

/// What is to be stored: at a multiple of 2^order.
#[derive(Clone, Copy)]
struct New {
    index: u64,
    order: u32,
    word: u64,
}

impl New {
    /// The shift of the node in which it stands.
    #[inline]
    fn shift(self) -> u32 {
        self.order / SLOT_BITS * SLOT_BITS
    }

    /// The smallest shift of a head over it.
    fn head_shift(self) -> u32 {
        let over_index = self.index.checked_ilog2().unwrap_or(0) / SLOT_BITS * SLOT_BITS;
        over_index.max(self.shift())
    }

    /// What a reply gives of it.
    #[inline(always)]
    fn with_marks(self, marks: u8) -> Reply {
        Reply::giving(Entry { base: self.index, order: self.order, word: self.word, marks })
    }
}

/// The nodes of the shifts from one up to, but not with, a higher one.
fn between(low: u32, high: u32) -> usize {
    ((high - low) / SLOT_BITS) as usize
}

fn too_few_nodes() -> Reply {
    Reply::only(answers::TOO_FEW_NODES)
}

impl<S: Slab> Tree<S> {
    #[inline(always)]
    pub fn store(&mut self, index: u64, order: u8, word: u64) -> Reply {
        if order > 63 {
            return Reply::only(answers::BAD_ORDER);
        }
        if index & ((1 << order) - 1) != 0 {
            return Reply::only(answers::UNALIGNED);
        }
        if !is_entry(word) {
            return Reply::only(answers::BAD_ENTRY);
        }
        self.store_new(New { index, order: order.into(), word })
    }

    #[inline(never)]
    pub fn reserve(&mut self, index: u64) -> Reply {
        match self.way_to(index) {
            Way::Outside | Way::Ends { word: 0, .. } => {
                self.store_new(New { index, order: 0, word: RESERVED })
            }
            _ => Reply::only(answers::COVERED),
        }
    }

    #[inline(always)]
    fn store_new(&mut self, new: New) -> Reply {
        match self.head {
            Head::Node { link, shift }
                if block_of(new.index, shift) == 0 && new.order < shift + SLOT_BITS =>
            {
                self.store_below(link, shift, new)
            }
            _ => self.store_at_head(new),
        }
    }

    /// A store that changes the head.
    #[inline(never)]
    fn store_at_head(&mut self, new: New) -> Reply {
        match self.head {
            Head::Empty => self.plant(new, 0),
            Head::Bare { marks, .. } if new.index == 0 => self.plant(new, marks & HANDED_ON),
            // The order is too large for the head, so all that was there goes.
            Head::Node { link, .. } if new.index == 0 => {
                let marks = self.slab.node(link).all_marks();
                self.plant(new, marks & HANDED_ON)
            }
            Head::Bare { word, marks } => self.extend_bare(new, word, marks),
            Head::Node { link, shift } => self.extend(new, link, shift),
        }
    }

    /// A new tree of this entry alone, with these marks.
    fn plant(&mut self, new: New, marks: u8) -> Reply {
        if new.index == 0 && new.order == 0 {
            self.head = Head::Bare { word: new.word, marks };
            return new.with_marks(marks);
        }
        let shift = new.head_shift();
        if between(new.shift(), shift) + 1 > self.slab.free() {
            return too_few_nodes();
        }
        let link = self.slab.take();
        if let Head::Node { link: old, .. } = self.head {
            self.release(old);
        }
        self.head = Head::Node { link, shift };
        self.settle(link, shift, new);
        // There are marks only where an entry at index 0 was replaced: its new one is in the head.
        (0..MATCHED)
            .filter(|mark| marks >> mark & 1 == 1)
            .for_each(|mark| self.set_mark(link, 0, mark));
        new.with_marks(marks)
    }

    /// A head of a larger shift, and below it the old one and the new entry, side by side.
    fn extend(&mut self, new: New, link: S::Link, shift: u32) -> Reply {
        let top = new.head_shift();
        if between(shift, top) + between(new.shift(), top) > self.slab.free() {
            return too_few_nodes();
        }
        let link = self.raise(link, shift, top);
        self.settle(link, top, new)
    }

    /// The same where the head is no node.
    fn extend_bare(&mut self, new: New, word: u64, marks: u8) -> Reply {
        let top = new.head_shift();
        if 1 + between(0, top) + between(new.shift(), top) > self.slab.free() {
            return too_few_nodes();
        }
        let link = self.slab.take();
        let node = self.slab.node_mut(link);
        (node.slots[0], node.filled) = (word, 1);
        for (mark, bits) in node.marks.iter_mut().enumerate() {
            *bits = u64::from(marks >> mark & 1);
        }
        let link = self.raise(link, 0, top);
        self.settle(link, top, new)
    }

    /// Nodes over the head, up to one of this shift, which is the head then.
    fn raise(&mut self, mut link: S::Link, from: u32, to: u32) -> S::Link {
        for _ in 0..between(from, to) {
            let marks = self.slab.node(link).marks.map(|marks| u64::from(marks != 0));
            let above = self.slab.take();
            let node = self.slab.node_mut(above);
            (node.slots[0], node.filled, node.marks) = (S::word(link), 1, marks);
            let below = self.slab.node_mut(link);
            (below.parent, below.offset) = (Some(above), 0);
            link = above;
        }
        self.head = Head::Node { link, shift: to };
        link
    }

    /// A store below a node whose block it lies in, and whose shift is that of the entry or larger.
    #[inline(always)]
    fn store_below(&mut self, mut link: S::Link, mut shift: u32, new: New) -> Reply {
        let own = new.shift();
        loop {
            let slot = slot_of(new.index, shift);
            if shift == own {
                return self.enter(Seat { link, shift, slot }, new);
            }
            let word = self.slab.node(link).word(slot);
            if !is_node(word) {
                return self.store_above(Seat { link, shift, slot }, word, new);
            }
            (link, shift) = (S::link(word), shift - SLOT_BITS);
        }
    }

    /// Below a head that is new.
    fn settle(&mut self, link: S::Link, shift: u32, new: New) -> Reply {
        self.store_below(link, shift, new)
    }

    /// The way down ends above the entry's node, at a slot with this word.
    #[inline(never)]
    fn store_above(&mut self, seat: Seat<S::Link>, word: u64, new: New) -> Reply {
        match word {
            0 => self.build(seat, new),
            _ => self.overwrite(seat, new),
        }
    }

    /// The nodes that are missing below an empty slot, and the entry in the last of them.
    fn build(&mut self, seat: Seat<S::Link>, new: New) -> Reply {
        if between(new.shift(), seat.shift) > self.slab.free() {
            return too_few_nodes();
        }
        let Seat { mut link, mut shift, mut slot } = seat;
        while shift > new.shift() {
            let below = self.slab.take();
            let node = self.slab.node_mut(link);
            node.put(slot, S::word(below));
            node.filled |= 1 << slot;
            let node = self.slab.node_mut(below);
            (node.parent, node.offset) = (Some(link), slot as u8);
            (link, shift) = (below, shift - SLOT_BITS);
            slot = slot_of(new.index, shift);
        }
        self.enter(Seat { link, shift, slot }, new)
    }

    /// In the node of its shift.
    #[inline(always)]
    fn enter(&mut self, seat: Seat<S::Link>, new: New) -> Reply {
        let slots = row(seat.slot, 1 << (new.order - seat.shift));
        let node = self.slab.node_mut(seat.link);
        if node.filled & slots != 0 {
            return self.enter_over(seat, slots, new);
        }
        fill(node, seat.slot, slots, new.word);
        new.with_marks(0)
    }

    /// The same where not all of its slots are empty.
    #[inline(never)]
    fn enter_over(&mut self, seat: Seat<S::Link>, slots: u64, new: New) -> Reply {
        let node = self.slab.node(seat.link);
        let there = node.word(seat.slot);
        // Also where the slot is a sibling: then those after it are of the same entry.
        let as_wide = row(seat.slot, node.width(seat.slot)) & slots == slots;
        if there != 0 && !is_node(there) && as_wide {
            return self.overwrite(seat, new);
        }
        self.replace(seat, slots, new)
    }

    /// An entry of the same or a larger order takes the word.
    fn overwrite(&mut self, seat: Seat<S::Link>, new: New) -> Reply {
        let node = self.slab.node_mut(seat.link);
        let (slot, entry) = entry_at(node, seat, new.index);
        node.put(slot, new.word);
        if entry.marks >> MATCHED & 1 == 1 {
            self.clear_mark(seat.link, slot, MATCHED);
        }
        Reply::giving(Entry { word: new.word, marks: entry.marks & HANDED_ON, ..entry })
    }

    /// All that is in these slots or below them goes, and the entry comes.
    fn replace(&mut self, seat: Seat<S::Link>, slots: u64, new: New) -> Reply {
        if seat.shift > 0 {
            self.release_below(seat.link, slots);
        }
        let node = self.slab.node_mut(seat.link);
        let mut marks = 0;
        for mark in 0..MATCHED {
            let bits = &mut node.marks[usize::from(mark)];
            if *bits & slots != 0 {
                *bits = *bits & !slots | 1 << seat.slot;
                marks |= 1 << mark;
            }
        }
        fill(node, seat.slot, slots, new.word);
        let matched = node.marks[usize::from(MATCHED)];
        if matched & slots != 0 {
            // All but one of the bits here; the last climbs.
            node.marks[usize::from(MATCHED)] = matched & !slots | 1 << seat.slot;
            self.clear_mark(seat.link, seat.slot, MATCHED);
        }
        new.with_marks(marks)
    }

    /// Frees the nodes below these slots.
    fn release_below(&mut self, link: S::Link, slots: u64) {
        let mut rest = self.slab.node(link).filled & slots;
        while rest != 0 {
            let word = self.slab.node(link).word(rest.trailing_zeros());
            if is_node(word) {
                self.release(S::link(word));
            }
            rest &= rest - 1;
        }
    }

    /// Frees a node and all below it.
    fn release(&mut self, link: S::Link) {
        self.release_below(link, u64::MAX);
        *self.slab.node_mut(link) = Node::empty();
        self.slab.give_back(link);
    }
}

/// An entry in these slots, the first of which is named.
#[inline(always)]
fn fill<L>(node: &mut Node<L>, slot: u32, slots: u64, word: u64) {
    node.filled |= slots;
    node.put(slot, word);
    if slots & (slots - 1) != 0 {
        fill_siblings(node, slot, slots & (slots - 1));
    }
}

fn fill_siblings<L>(node: &mut Node<L>, slot: u32, mut slots: u64) {
    // Without the first slot: it was no sibling, or its entry would have taken the word.
    node.siblings |= slots;
    while slots != 0 {
        node.put(slots.trailing_zeros(), sibling(slot as usize));
        slots &= slots - 1;
    }
}
