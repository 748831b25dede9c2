//! Which finds are of the kinds that finds.rs is made for, by reference's replies and its tree alone.
//!
//! A stretch: slots of one node, side by side, that a find passes one after the other: empty and
//! reserved ones and, with filter 0, 1 or 2, those of entries and nodes that lack the mark.

use crate::lend::Call;
use reference::batch::{read, Command, REPLY_BYTES};
use reference::find::ANY_ENTRY;
use reference::model::Entry;
use reference::recover::recover;
use reference::tree::{Head, Node, Slot, Tree, SLOTS};

const ENDED: u8 = 12;
const PAUSED: u8 = 13;

/// What is counted of finds.
#[derive(Clone, Copy, Debug, Default, PartialEq, Eq)]
pub struct FindCounts {
    pub finds: usize,
    /// Paused within a stretch, of which one slot was passed and one was not.
    pub paused_inside: usize,
    /// Ended because last lies in a stretch that goes on after it.
    pub last_inside: usize,
    /// The same two with filter 3.
    pub any_paused_inside: usize,
    pub any_last_inside: usize,
    /// Began in a slot that holds a sibling.
    pub from_sibling: usize,
    /// Passed two entries of several slots, side by side in one node.
    pub over_runs: usize,
}

impl FindCounts {
    pub fn add(&mut self, other: FindCounts) {
        self.finds += other.finds;
        self.paused_inside += other.paused_inside;
        self.last_inside += other.last_inside;
        self.any_paused_inside += other.any_paused_inside;
        self.any_last_inside += other.any_last_inside;
        self.from_sibling += other.from_sibling;
        self.over_runs += other.over_runs;
    }
}

/// The finds of a run that has nothing else, on the pool that it leaves; none in any other call.
pub fn counts(call: &Call, pool: &[u64], replies: &[u8]) -> FindCounts {
    let Call::Run { batch, .. } = call else { return FindCounts::default() };
    let commands = read(batch).unwrap_or_default();
    let is_find = |command: &Command| matches!(command, Command::Find { .. });
    if !commands.iter().all(is_find) {
        return FindCounts::default();
    }
    let list = recover(pool).map_or(Vec::new(), |state| state.list);
    of_finds(&Tree::of(&list), &commands, replies)
}

fn of_finds(tree: &Tree, commands: &[Command], replies: &[u8]) -> FindCounts {
    let mut all = FindCounts::default();
    for (command, reply) in commands.iter().zip(replies.chunks(REPLY_BYTES)) {
        if let Command::Find { first, last, filter, .. } = *command {
            all.add(one(&Search { tree, filter }, first, last, reply));
        }
    }
    all
}

fn one(search: &Search, first: u64, last: u64, reply: &[u8]) -> FindCounts {
    let mut index = [0; 8];
    index.copy_from_slice(&reply[4..12]);
    let answer = reply[3];
    let reached = if answer == ENDED { last } else { u64::from_be_bytes(index) };
    let paused = answer == PAUSED && search.is_inside(reached);
    let ended = answer == ENDED && search.goes_on_after(last);
    let any = search.filter == ANY_ENTRY;
    FindCounts {
        finds: 1,
        paused_inside: usize::from(paused && !any),
        last_inside: usize::from(ended && !any),
        any_paused_inside: usize::from(paused && any),
        any_last_inside: usize::from(ended && any),
        from_sibling: usize::from(search.is_sibling(first)),
        over_runs: usize::from(search.passes_runs(first, reached)),
    }
}

struct Search<'a> {
    tree: &'a Tree<'a>,
    filter: u8,
}

/// The slots of one node that a step passes: one slot, or all of an entry.
#[derive(Clone, Copy)]
struct Passed {
    node: Node,
    from: usize,
    to: usize,
}

impl Search<'_> {
    fn takes(&self, marks: u8) -> bool {
        self.filter == ANY_ENTRY || marks >> self.filter & 1 == 1
    }

    /// What a step from this position passes; none if it is a match or there is nothing below.
    fn step(&self, position: u64) -> Option<Passed> {
        let Head::Node(mut node) = self.tree.head else { return None };
        if !node.range().holds(position) {
            return None;
        }
        loop {
            let slot = node.slot_of(position);
            let (from, slots) = match self.tree.slot(node, slot) {
                Slot::Entry(entry) | Slot::Sibling(entry) if self.takes(entry.marks) => {
                    return None
                }
                Slot::Entry(entry) | Slot::Sibling(entry) => {
                    (node.slot_of(entry.base), 1 << (entry.order - node.shift))
                }
                Slot::Node(child) if self.takes(self.tree.marks_below(child)) => {
                    node = child;
                    continue;
                }
                Slot::Empty | Slot::Reserved | Slot::Node(_) => (slot, 1),
            };
            return Some(Passed { node, from, to: from + slots });
        }
    }

    /// Whether the slot before this position and the one after are of one stretch.
    fn is_inside(&self, position: u64) -> bool {
        let before = position.checked_sub(1).and_then(|before| self.step(before));
        let after = self.step(position);
        matches!((before, after), (Some(a), Some(b)) if a.node == b.node && a.to == b.from)
    }

    /// Whether what a step passes here has more of the stretch after it.
    fn goes_on_after(&self, position: u64) -> bool {
        let Some(passed) = self.step(position) else { return false };
        let next = passed.node.slot_range(passed.to.min(SLOTS - 1)).start;
        let inside = passed.to < SLOTS && passed.node.range().end > next;
        inside && self.is_inside(next as u64)
    }

    fn is_sibling(&self, position: u64) -> bool {
        let Head::Node(mut node) = self.tree.head else { return false };
        if !node.range().holds(position) {
            return false;
        }
        loop {
            match self.tree.slot(node, node.slot_of(position)) {
                Slot::Node(child) => node = child,
                slot => return matches!(slot, Slot::Sibling(_)),
            }
        }
    }

    /// Whether two entries of several slots, side by side in one node, lie between and are passed.
    fn passes_runs(&self, first: u64, reached: u64) -> bool {
        let several = |passed: &Passed| passed.to - passed.from > 1;
        let within = |entry: &&Entry| entry.base >= first && entry.range().end <= reached.into();
        let mut ends = self.tree.list.iter().filter(within).map(|entry| entry.range().end as u64);
        ends.any(|end| {
            let before = self.step(end - 1).filter(several);
            let after = self.step(end).filter(several);
            let pair = before.zip(after).filter(|(a, b)| a.node == b.node && a.to == b.from);
            pair.is_some_and(|(_, b)| b.node.slot_range(b.to - 1).end <= u128::from(reached))
        })
    }
}
