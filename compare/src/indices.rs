//! Indices at the edges of entries, in them, between them and past them.

use reference::model::Entry;
use reference::random::Random;

pub fn any(random: &mut Random, list: &[Entry]) -> Option<Entry> {
    list.get(random.below(list.len().max(1) as u64) as usize).copied()
}

/// The last index that the entry covers.
pub fn end(entry: Entry) -> u64 {
    (entry.range().end - 1) as u64
}

/// An index that the entry covers.
pub fn inside(random: &mut Random, entry: Entry) -> u64 {
    entry.base + random.below(end(entry) - entry.base + 1)
}

/// An index at an edge of the entry, in it, or just beside it.
pub fn about(random: &mut Random, entry: Entry) -> u64 {
    match random.below(5) {
        0 => entry.base,
        1 => end(entry),
        2 => entry.base.saturating_sub(1),
        3 => end(entry).saturating_add(1),
        _ => inside(random, entry),
    }
}

/// An index from this one on and before the next entry: near, or anywhere.
pub fn before_next(random: &mut Random, list: &[Entry], index: u64) -> u64 {
    let next = list.get(list.partition_point(|entry| entry.base <= index));
    let room = next.map_or(u64::MAX, |next| next.base - 1) - index;
    let near = room.min(64 << random.below(58));
    index + random.below(near.saturating_add(1).max(1))
}

/// An index that no entry covers, mostly; one after the last entry if there is no gap.
pub fn in_gap(random: &mut Random, list: &[Entry]) -> u64 {
    let apart = |pair: &&[Entry]| pair[0].range().end < u128::from(pair[1].base);
    let gaps: Vec<Entry> = list.windows(2).filter(apart).map(|pair| pair[0]).collect();
    let before = any(random, &gaps).or(list.last().copied());
    let after = before.map_or(0, |entry| end(entry).saturating_add(1));
    if random.one_in(2) {
        after
    } else {
        before_next(random, list, after)
    }
}

pub fn first(random: &mut Random, list: &[Entry]) -> u64 {
    let Some(entry) = any(random, list) else { return random.word() >> random.below(64) };
    match random.below(32) {
        0 => 0,
        1 => u64::MAX,
        2 | 3 => random.word() >> random.below(64),
        // Past the last entry, and often past the head's block.
        4 | 5 => end(list[list.len() - 1]).saturating_add(1 + random.below(5000)),
        6..=13 => {
            let wide = list.iter().filter(|entry| entry.order % 6 > 0).copied().collect::<Vec<_>>();
            any(random, &wide).map_or(0, |entry| inside(random, entry))
        }
        14..=19 => in_gap(random, list),
        _ => about(random, entry),
    }
}

/// None below first.
pub fn last(random: &mut Random, list: &[Entry], first: u64) -> u64 {
    let after = &list[list.partition_point(|entry| entry.base < first)..];
    let near = &after[..after.len().min(40)];
    let last = match (random.below(16), any(random, near)) {
        (0..=5, _) | (_, None) => u64::MAX,
        (6, _) => first,
        (7..=10, _) => before_next(random, list, first),
        (_, Some(entry)) => about(random, entry),
    };
    last.max(first)
}
