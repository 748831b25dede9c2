//! Random listings (P1), and of which kinds a listing is, by reference alone.

use crate::indices::{any, first, inside, last};
use crate::lend::{Call, Given};
use reference::listing::{listed, LISTED_BYTES};
use reference::model::Entry;
use reference::random::Random;
use reference::recover::recover;
use reference::tree::{head, nodes, Head};

/// A listing of these words; where they are no pool, of any range into any buffer.
pub fn random_listing(random: &mut Random, words: &[u64]) -> Call {
    match recover(words) {
        Some(state) => listing_of(random, &state.list),
        None => {
            let (first, last) = range(random, &[]);
            Call::List { first, last, buffer: random.below(90) as usize }
        }
    }
}

/// A listing of a pool with these entries.
pub fn listing_of(random: &mut Random, list: &[Entry]) -> Call {
    let (first, last) = range(random, list);
    let exact = if first > last { 0 } else { LISTED_BYTES * listed(list, first, last).len() };
    Call::List { first, last, buffer: buffer(random, exact) }
}

/// Mostly in order; often with its ends inside entries, or both in one.
fn range(random: &mut Random, list: &[Entry]) -> (u64, u64) {
    let from = first(random, list);
    match (random.below(16), any(random, list)) {
        (0, _) => (0, u64::MAX),
        (1 | 2, _) => above(random, from),
        (3, Some(entry)) => {
            let (one, other) = (inside(random, entry), inside(random, entry));
            (one.min(other), one.max(other))
        }
        (4..=7, Some(entry)) => {
            let wide: Vec<Entry> = list.iter().filter(|entry| entry.order > 0).copied().collect();
            let entry = any(random, &wide).unwrap_or(entry);
            let to = inside(random, entry);
            (from.min(to), to)
        }
        _ => (from, last(random, list, from)),
    }
}

/// First above last, often by one.
fn above(random: &mut Random, index: u64) -> (u64, u64) {
    let index = index.max(1);
    let less = if random.one_in(2) { 1 } else { 1 + random.below(index) };
    (index, index - less)
}

/// Mostly as much as the list needs; at times a byte or more too little or too much, or nothing.
fn buffer(random: &mut Random, exact: usize) -> usize {
    match random.below(16) {
        0 | 1 => exact.saturating_sub(1),
        2 => random.below(exact as u64 + 1) as usize,
        3 => exact.saturating_sub(LISTED_BYTES),
        4 => 0,
        5 => exact + 1,
        6..=8 => exact + random.below(200) as usize,
        _ => exact,
    }
}

/// What a listing is; one may be of several kinds.
#[derive(Clone, Copy, Debug, PartialEq, Eq, PartialOrd, Ord)]
pub enum Kind {
    /// An entry in the list begins before first, or ends after last; or one does both.
    CutByFirst,
    CutByLast,
    CutByBoth,
    /// The entries listed lie in two nodes or more.
    SeveralNodes,
    /// Some entry is left out before those listed, or after them.
    OthersBefore,
    OthersAfter,
    /// None is listed, though there are entries.
    Gap,
    EmptyPool,
    EntryAsHead,
    /// An entry of order 63 is listed.
    Widest,
    /// A reservation is listed (P6), as head, or as the only thing.
    Reserved,
    ReservedAsHead,
    ReservedAlone,
    Exact,
    /// Bytes past the list stay.
    Longer,
    OneByteShort,
    Short,
    /// No buffer at all, and entries to list.
    NoBuffer,
    FirstAboveLast,
    Damaged,
    /// First above last as well: answer 2 goes first.
    DamagedAndAbove,
    BadLength,
}

/// Every kind with its name.
pub const KINDS: [(Kind, &str); 22] = [
    (Kind::CutByFirst, "cut by first"),
    (Kind::CutByLast, "cut by last"),
    (Kind::CutByBoth, "by both"),
    (Kind::SeveralNodes, "of several nodes"),
    (Kind::OthersBefore, "others before"),
    (Kind::OthersAfter, "others after"),
    (Kind::Gap, "in a gap"),
    (Kind::EmptyPool, "empty pool"),
    (Kind::EntryAsHead, "entry as head"),
    (Kind::Widest, "order 63"),
    (Kind::Reserved, "with reservations"),
    (Kind::ReservedAsHead, "as head"),
    (Kind::ReservedAlone, "alone"),
    (Kind::Exact, "exact buffer"),
    (Kind::Longer, "longer"),
    (Kind::OneByteShort, "one byte short"),
    (Kind::Short, "shorter"),
    (Kind::NoBuffer, "no buffer"),
    (Kind::FirstAboveLast, "first above last"),
    (Kind::Damaged, "damaged pool"),
    (Kind::DamagedAndAbove, "damaged and above"),
    (Kind::BadLength, "bad pool length"),
];

/// The kinds of a listing of this pool; none for any other call.
pub fn kinds(call: &Call, pool: &[u64], given: &Given) -> Vec<Kind> {
    let Call::List { first, last, buffer } = *call else { return Vec::new() };
    match (given.answer, recover(pool)) {
        (1, _) => vec![Kind::BadLength],
        (_, None) if first > last => vec![Kind::DamagedAndAbove],
        (_, None) => vec![Kind::Damaged],
        (8, _) => vec![Kind::FirstAboveLast],
        (_, Some(state)) => {
            let found = listed(&state.list, first, last);
            let mut all = by_entries(&state.list, &found);
            all.extend(by_ends(&found, first, last));
            all.push(by_buffer(LISTED_BYTES * found.len(), buffer));
            all
        }
    }
}

fn chosen(kinds: &[(Kind, bool)]) -> Vec<Kind> {
    kinds.iter().filter(|(_, so)| *so).map(|(kind, _)| *kind).collect()
}

fn by_entries(list: &[Entry], found: &[Entry]) -> Vec<Kind> {
    let reserved = found.iter().filter(|entry| entry.is_reservation()).count();
    chosen(&[
        (Kind::Reserved, reserved > 0),
        (Kind::ReservedAsHead, reserved > 0 && head(list) == Head::Reserved),
        (Kind::ReservedAlone, reserved > 0 && reserved == found.len()),
        (Kind::EmptyPool, list.is_empty()),
        (Kind::Gap, found.is_empty() && !list.is_empty()),
        (Kind::EntryAsHead, matches!(head(list), Head::Entry(_))),
        (Kind::Widest, found.iter().any(|entry| entry.order == 63)),
        (Kind::OthersBefore, !found.is_empty() && found.first() != list.first()),
        (Kind::OthersAfter, !found.is_empty() && found.last() != list.last()),
        (Kind::SeveralNodes, in_several_nodes(list, found)),
    ])
}

/// Whether no node has the first and the last of them in its own slots.
fn in_several_nodes(list: &[Entry], found: &[Entry]) -> bool {
    let (Some(one), Some(other)) = (found.first(), found.last()) else { return false };
    let over = |entry: &Entry| {
        let nodes = nodes(list);
        let lowest = nodes.into_iter().filter(|node| node.range().holds(entry.base));
        lowest.filter(|node| node.shift >= entry.order - entry.order % 6).min()
    };
    over(one) != over(other)
}

fn by_ends(found: &[Entry], first: u64, last: u64) -> Vec<Kind> {
    let before = |entry: &&Entry| entry.base < first;
    let after = |entry: &&Entry| entry.range().end - 1 > u128::from(last);
    let (by_first, by_last) = (found.first().filter(before), found.last().filter(after));
    let both = by_first.is_some() && by_first == by_last;
    chosen(&[
        (Kind::CutByBoth, both),
        (Kind::CutByFirst, by_first.is_some() && !both),
        (Kind::CutByLast, by_last.is_some() && !both),
    ])
}

fn by_buffer(exact: usize, buffer: usize) -> Kind {
    match buffer {
        _ if buffer == exact => Kind::Exact,
        _ if buffer > exact => Kind::Longer,
        0 => Kind::NoBuffer,
        _ if buffer + 1 == exact => Kind::OneByteShort,
        _ => Kind::Short,
    }
}
