//! Find. Steps are counted as if each began at the head; the slots of a node are passed all at once.

use crate::node::{block_of, slot_base, slot_of, Node, ANY_ENTRY, SLOTS, SLOT_BITS};
use crate::reply::{answers, Entry, Reply};
use crate::slab::Slab;
use crate::tree::{entry_at, Head, Seat, Tree};
use crate::word::{is_node, RESERVED};

#[derive(Clone, Copy)]
pub struct Find {
    pub first: u64,
    pub last: u64,
    pub filter: u8,
    pub budget: u16,
}

impl Find {
    fn refusal(self) -> Option<u8> {
        if self.filter > ANY_ENTRY {
            Some(answers::BAD_MARK)
        } else if self.first > self.last {
            Some(answers::FIRST_ABOVE_LAST)
        } else if self.budget == 0 {
            Some(answers::NO_BUDGET)
        } else {
            None
        }
    }

    fn ended(steps: u32) -> Reply {
        Reply::only(answers::ENDED).with_count(steps)
    }

    /// All of the budget was used without an end or a match.
    fn paused(self, position: u64) -> Reply {
        Reply { index: position, ..Reply::only(answers::PAUSED) }.with_count(self.budget.into())
    }
}

/// Where a find is: in a node, at a slot that is no sibling, and the steps so far.
struct Walk<L> {
    seat: Seat<L>,
    /// An index in that slot.
    position: u64,
    steps: u32,
}

/// How the slots of a node are passed from one on.
enum Pass {
    /// To this slot, which holds a match or leads to one.
    Stop(u32),
    /// To the end of the node.
    Leave,
    /// The slot of last was passed.
    Ended,
    /// The budget was used, with this position.
    Paused(u64),
}

impl<S: Slab> Tree<S> {
    pub fn find(&self, find: Find) -> Reply {
        if let Some(answer) = find.refusal() {
            return Reply::only(answer);
        }
        match self.head {
            Head::Node { link, shift } if block_of(find.first, shift) == 0 => {
                self.find_below(find, link, shift)
            }
            Head::Bare { word, marks } if find.first == 0 => find_bare(find, word, marks),
            _ => Find::ended(1),
        }
    }

    fn find_below(&self, find: Find, link: S::Link, shift: u32) -> Reply {
        let slot = slot_of(find.first, shift);
        let mut walk = Walk { seat: Seat { link, shift, slot }, position: find.first, steps: 0 };
        loop {
            let node = self.slab.node(walk.seat.link);
            walk.seat.slot = node.first_slot(walk.seat.slot);
            match walk.pass(node, find) {
                Pass::Ended => return Find::ended(walk.steps),
                Pass::Paused(position) => return find.paused(position),
                Pass::Stop(slot) => {
                    walk.go_to(slot);
                    let word = node.word(slot);
                    if !is_node(word) {
                        let (_, entry) = entry_at(node, walk.seat, walk.position);
                        return Reply::giving(entry).with_count(walk.steps + 1);
                    }
                    walk.enter(S::link(word));
                }
                // Past the head's block one step more ends the search.
                Pass::Leave if !self.climb(&mut walk) => return Find::ended(walk.steps + 1),
                Pass::Leave => {}
            }
        }
    }

    /// From the end of a node to the slot after it; whether there is one.
    fn climb(&self, walk: &mut Walk<S::Link>) -> bool {
        loop {
            let node = self.slab.node(walk.seat.link);
            let (Some(parent), slot) = (node.parent, u32::from(node.offset) + 1) else {
                return false;
            };
            walk.seat = Seat { link: parent, shift: walk.seat.shift + SLOT_BITS, slot };
            if slot < SLOTS {
                walk.position = slot_base(walk.position, walk.seat.shift, slot);
                return true;
            }
        }
    }
}

impl<L: Copy> Walk<L> {
    /// Passes slots of its node up to one that is not passed, to the slot of last, to the node's end
    /// or to the end of the budget, and counts the steps.
    #[inline(always)]
    fn pass(&mut self, node: &Node<L>, find: Find) -> Pass {
        let Seat { shift, slot: from, .. } = self.seat;
        let stop = node.next_stop(find.filter, from);
        let ends_here = block_of(find.last, shift) == block_of(self.position, shift);
        let last = if ends_here { slot_of(find.last, shift) } else { SLOTS - 1 };
        let left = u32::from(find.budget) - self.steps;
        if stop <= last {
            let steps = node.steps(from, stop);
            self.steps += steps;
            return if steps < left { Pass::Stop(stop) } else { self.pause(node, left) };
        }
        let steps = node.steps(from, last + 1);
        self.steps += steps;
        match ends_here {
            true if steps <= left => Pass::Ended,
            false if steps < left => Pass::Leave,
            _ => self.pause(node, left),
        }
    }

    /// After so many steps in its node.
    #[cold]
    fn pause(&self, node: &Node<L>, steps: u32) -> Pass {
        let Seat { shift, slot, .. } = self.seat;
        let after = u64::from(node.after_steps(slot, steps));
        // Past the last slot it is the first index of the next node; there is one, for last lies there.
        Pass::Paused(slot_base(self.position, shift, 0) + (after << shift))
    }

    /// The position moves to another slot's first index; in the same slot it stays.
    #[inline]
    fn go_to(&mut self, slot: u32) {
        if slot != self.seat.slot {
            self.position = slot_base(self.position, self.seat.shift, slot);
            self.seat.slot = slot;
        }
    }

    /// Down to the node below its slot.
    #[inline]
    fn enter(&mut self, link: L) {
        let shift = self.seat.shift - SLOT_BITS;
        self.seat = Seat { link, shift, slot: slot_of(self.position, shift) };
    }
}

/// From index 0, with an entry or a reserved index as head: as a slot of one index.
fn find_bare(find: Find, word: u64, marks: u8) -> Reply {
    let matches = find.filter == ANY_ENTRY || marks >> find.filter & 1 == 1;
    if word != RESERVED && matches {
        Reply::giving(Entry { base: 0, order: 0, word, marks }).with_count(1)
    } else if find.last == 0 {
        Find::ended(1)
    } else if find.budget == 1 {
        find.paused(1)
    } else {
        Find::ended(2)
    }
}
