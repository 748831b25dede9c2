//! Find, step by step, over a list and its tree.

use crate::model::{Entry, Range};
use crate::tree::{Head, Node, Slot, Tree};

/// The filter that takes any entry; 0, 1 and 2 take entries with that mark.
pub const ANY_ENTRY: u8 = 3;

/// How a find came out, and the steps it took.
#[derive(Clone, Copy, Debug, PartialEq, Eq)]
pub struct Found {
    pub result: FindResult,
    pub steps: u16,
}

#[derive(Clone, Copy, Debug, PartialEq, Eq)]
pub enum FindResult {
    Match(Entry),
    Ended,
    PausedAt(u64),
}

/// Where one step stops.
enum Stop {
    /// No head, or the position is outside the head's block.
    PastHead,
    Match(Entry),
    /// No match here; the next position is the end of this slot's or entry's block.
    Pass(Range),
}

pub fn find(tree: &Tree, first: u64, last: u64, filter: u8, budget: u16) -> Found {
    let mut position = first;
    for steps in 1..=budget {
        match step(tree, position, filter) {
            Stop::PastHead => return Found { result: FindResult::Ended, steps },
            Stop::Match(entry) => return Found { result: FindResult::Match(entry), steps },
            Stop::Pass(block) if block.end > u128::from(last) => {
                return Found { result: FindResult::Ended, steps };
            }
            Stop::Pass(block) => position = block.end as u64,
        }
    }
    Found { result: FindResult::PausedAt(position), steps: budget }
}

/// One step down from the head towards the position.
fn step(tree: &Tree, position: u64, filter: u8) -> Stop {
    match tree.head {
        Head::Empty => Stop::PastHead,
        Head::Reserved if position == 0 => Stop::Pass(Range { start: 0, end: 1 }),
        Head::Reserved => Stop::PastHead,
        Head::Entry(entry) if entry.range().holds(position) => at_entry(entry, filter),
        Head::Entry(_) => Stop::PastHead,
        Head::Node(head) if head.range().holds(position) => down(tree, head, position, filter),
        Head::Node(_) => Stop::PastHead,
    }
}

fn down(tree: &Tree, head: Node, position: u64, filter: u8) -> Stop {
    let mut node = head;
    loop {
        let slot = node.slot_of(position);
        match tree.slot(node, slot) {
            Slot::Empty | Slot::Reserved => return Stop::Pass(node.slot_range(slot)),
            Slot::Entry(entry) | Slot::Sibling(entry) => return at_entry(entry, filter),
            Slot::Node(child) if passes(tree.marks_below(child), filter) => node = child,
            Slot::Node(_) => return Stop::Pass(node.slot_range(slot)),
        }
    }
}

fn at_entry(entry: Entry, filter: u8) -> Stop {
    if passes(entry.marks, filter) {
        Stop::Match(entry)
    } else {
        Stop::Pass(entry.range())
    }
}

fn passes(marks: u8, filter: u8) -> bool {
    filter == ANY_ENTRY || marks & (1 << filter) != 0
}
