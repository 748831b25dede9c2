//! The kinds of well-formed pools that the check is measured on.

use crate::finds::runs;
use crate::library::Library;
use crate::loads::*;
use crate::measure::{empty_pool, longest_batch};
use std::ops::Range;
use xapool_host::{Command, MOST_NODES, REPLY_BYTES};

/// More slots than the nodes of any pool have.
const MOST_SLOTS: u64 = 64 * MOST_NODES as u64;
const TOO_FEW_NODES: u8 = 11;

/// The names of the two that have limits of their own.
pub const DENSE: &str = "dense, full";
pub const HOLES: &str = "random holes";

/// A kind of pool: as many of these stores as fit, then the marks.
pub struct Kind {
    pub name: &'static str,
    stores: Vec<Command>,
    marks: Vec<Command>,
}

impl Kind {
    fn new(name: &'static str, stores: Vec<Command>) -> Kind {
        Kind { name, stores, marks: Vec::new() }
    }

    fn marked(self, name: &'static str, marks: Vec<Command>) -> Kind {
        Kind { name, marks, ..self }
    }
}

/// The full ones of order 0 come first, then those with holes, then those with siblings or
/// reservations.
pub fn kinds() -> Vec<Kind> {
    let mut random = Random(20);
    let dense = || Kind::new(DENSE, dense_stores(MOST_SLOTS));
    let sparse = |bits| (0..MOST_NODES as u64).map(|_| store(random.below(bits))).collect();
    let [sparse, wide] = [1 << 24, u64::MAX].map(sparse);
    let holes: Vec<u64> = (0..2 * MOST_SLOTS).filter(|_| random.below(2) == 0).collect();
    let with_holes = || Kind::new(HOLES, holes.iter().copied().map(store).collect());
    let runs = runs(&mut random, MOST_SLOTS);
    let order_1: Vec<(u64, u8)> = (0..MOST_SLOTS / 2).map(|number| (2 * number, 1)).collect();
    let order_5: Vec<(u64, u8)> = (0..MOST_SLOTS / 32).map(|number| (32 * number, 5)).collect();
    let mut all = vec![
        Kind::new("empty", Vec::new()),
        dense(),
        dense().marked("dense, one in 97 marked", one_in_97(MOST_SLOTS).map(mark).collect()),
        dense().marked("dense, all marked", all_marks(0..MOST_SLOTS)),
        with_holes(),
        with_holes().marked("random holes, the rest marked", all_marks(holes.iter().copied())),
        Kind::new("sparse below 2^24", sparse),
        Kind::new("sparse below 2^64", wide),
        Kind::new("order 1", stores(&order_1)),
        Kind::new("order 5", stores(&order_5)),
        Kind::new("runs of orders 0 to 5", stores(&runs)),
    ];
    all.extend(reserved(&mut random));
    all.extend(mixed(&mut random));
    all
}

/// Half of the places reserved, and the others empty or not.
fn reserved(random: &mut Random) -> [Kind; 2] {
    let places: Vec<bool> = (0..2 * MOST_SLOTS).map(|_| random.below(2) == 0).collect();
    let at = |index: usize| places[index].then_some(Command::Reserve { index: index as u64 });
    let indices = || 0..places.len();
    let either = |index| at(index).unwrap_or(store(index as u64));
    [
        Kind::new("half reserved, the rest empty", indices().filter_map(at).collect()),
        Kind::new("half reserved, the rest stored", indices().map(either).collect()),
    ]
}

/// Entries of several orders at random with gaps and marks: in leaves, in the nodes above them, and in
/// nodes that have a child each.
fn mixed(random: &mut Random) -> Vec<Kind> {
    let all = [
        ("orders 0 and 1, gaps, marks", 0..2),
        ("orders 0 to 5, gaps, marks", 0..6),
        ("orders 6 and 7, gaps, marks", 6..8),
        ("orders 6 to 11, gaps, marks", 6..12),
    ];
    let mut kinds = Vec::new();
    for (name, orders) in all {
        let indices = 0..MOST_SLOTS << orders.start;
        let entries = with_gaps(random, orders, indices);
        kinds.push(half_marked(random, name, &entries));
    }
    let entries = chains(random);
    kinds.push(half_marked(random, "two orders and a child in each node, gaps, marks", &entries));
    kinds
}

fn half_marked(random: &mut Random, name: &'static str, entries: &[(u64, u8)]) -> Kind {
    let marked = entries.iter().filter(|_| random.below(2) == 0).map(|entry| mark(entry.0));
    let marks = marked.collect();
    Kind { name, stores: stores(entries), marks }
}

/// Entries of these orders, each at the next of these indices that it may have, one in three of them
/// left out.
fn with_gaps(random: &mut Random, orders: Range<u8>, indices: Range<u64>) -> Vec<(u64, u8)> {
    let (mut all, mut next) = (Vec::new(), indices.start);
    while next < indices.end {
        let order = orders.start + random.below(orders.len() as u64) as u8;
        let base = u64::next_multiple_of(next, 1 << order);
        if random.below(3) > 0 {
            all.push((base, order));
        }
        next = base + (1 << order);
    }
    all
}

/// Of each block of 2^24 a node of each shift from 18 to 0, each in slot 0 of the one before it; entries
/// of two orders in the slots from 2 on.
fn chains(random: &mut Random) -> Vec<(u64, u8)> {
    let mut all = Vec::new();
    for block in 0..MOST_NODES as u64 / 4 {
        for shift in [0, 6, 12, 18] {
            let slot = |number: u64| (block << 24) + (number << shift);
            all.extend(with_gaps(random, shift..shift + 2, slot(2)..slot(64)));
        }
    }
    all
}

fn stores(entries: &[(u64, u8)]) -> Vec<Command> {
    entries.iter().map(|(base, order)| store_order(*base, *order)).collect()
}

fn all_marks(indices: impl Iterator<Item = u64>) -> Vec<Command> {
    indices.flat_map(|index| (0..3).map(move |mark| Command::Mark { index, mark })).collect()
}

/// The words of a pool of this kind. Whether the builds make it alike is what the loads are for.
pub fn pool(library: &dyn Library, kind: &Kind, nodes: usize) -> Result<Vec<u64>, String> {
    let mut pool = empty_pool(library, nodes)?;
    // Once full, no more fit; marks of what is not there are refused, and that is all.
    for part in [&kind.stores, &kind.marks] {
        for batch in batches(part, longest_batch(&[library])?) {
            let mut reply = vec![0; REPLY_BYTES * batch.len()];
            let result = library.run(&mut pool, batch.bytes(), &mut reply);
            if result.answer != 0 {
                return Err(format!("{}: {result:?}", kind.name));
            }
            if reply.chunks(REPLY_BYTES).any(|reply| reply[3] == TOO_FEW_NODES) {
                break;
            }
        }
    }
    Ok(pool)
}
