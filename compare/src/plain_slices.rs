//! The slices that lists of calls of the plain engine (P12) start from: empty, a list and zeros, damaged, of any lengths.

use reference::awkward::Commands as Source;
use reference::model::{Entry, RESERVED};
use reference::plain::{execute, MOST_ENTRIES};
use reference::random::Random;

/// Index, order, word and marks.
pub type Slices = [Vec<u64>; 4];

/// Mostly a few, so that lists fall on both sides of answer 11; the largest are rare.
fn random_room(random: &mut Random) -> usize {
    let most = match random.below(128) {
        0 | 1 => return MOST_ENTRIES,
        2 => MOST_ENTRIES as u64,
        3..=6 => 400,
        7..=40 => 40,
        41..=56 => return 0,
        57..=80 => return 400,
        _ => 8,
    };
    1 + random.below(most) as usize
}

pub fn random_slices(random: &mut Random, source: &mut Source) -> Slices {
    let room = random_room(random);
    match random.below(24) {
        0 => lengths(random, &random_list(room, &[])),
        1 => {
            let list = some_list(random, source, room);
            lengths(random, &random_list(room, &list))
        }
        2 => [(); 4].map(|()| (0..room).map(|_| random.word() >> random.below(64)).collect()),
        3..=8 => {
            let list = some_list(random, source, room);
            let mut slices = random_list(room, &list);
            damage(random, &mut slices, list.len());
            slices
        }
        9..=14 => random_list(room, &some_list(random, source, room)),
        _ => random_list(room, &[]),
    }
}

/// The list and then zeros.
pub fn random_list(room: usize, list: &[Entry]) -> Slices {
    let fields = |entry: &Entry| [entry.base, entry.order.into(), entry.word, entry.marks.into()];
    let column = |field: usize| {
        let mut column: Vec<u64> = list.iter().map(|entry| fields(entry)[field]).collect();
        column.resize(room, 0);
        column
    };
    [0, 1, 2, 3].map(column)
}

/// One slice shorter or longer, or all of them too long.
fn lengths(random: &mut Random, slices: &Slices) -> Slices {
    let mut slices = slices.clone();
    let (one, length) = (random.below(4) as usize, slices[0].len());
    match random.below(4) {
        0 => slices[one].resize(length + 1, 0),
        1 => slices[one].truncate(length.saturating_sub(1)),
        2 => {
            let length = MOST_ENTRIES + 1 + random.below(8) as usize;
            slices.iter_mut().for_each(|slice| slice.resize(length, 0));
        }
        _ => slices[one].resize(random.below(60) as usize, 0),
    }
    slices
}

/// What commands leave, or entries side by side; at times as many as there is room for.
fn some_list(random: &mut Random, source: &mut Source, room: usize) -> Vec<Entry> {
    if random.one_in(2) {
        let count = if random.one_in(2) { room } else { random.below(room as u64 + 1) as usize };
        return row(random, count);
    }
    let mut list = Vec::new();
    for _ in 0..random.below(40) {
        list = execute(&list, room, source.command()).1.unwrap_or(list);
    }
    list
}

/// Entries side by side or with gaps, from any index on; fewer where the indices end.
fn row(random: &mut Random, count: usize) -> Vec<Entry> {
    let mut list = Vec::new();
    // Long rows are of small entries near each other: else they would come to the last index soon.
    let is_long = count > 100;
    let widest = [1, 4, 8, if is_long { 16 } else { 64 }][random.below(4) as usize];
    let mut next = Some(random.word() >> random.below(64).max(if is_long { 2 } else { 0 }));
    while let (Some(from), true) = (next, list.len() < count) {
        let order = random.below(widest) as u8;
        let block = 1u64 << order;
        let Some(base) = from.div_ceil(block).checked_mul(block) else { break };
        let entry = match random.below(6) {
            0 => Entry::reservation(base),
            _ => {
                let (word, marks) = (1 + 2 * random.below(1 << 20), random.below(8) as u8);
                Entry { base, order, word, marks }
            }
        };
        let gap = match random.below(4) {
            0 if is_long => random.below(5),
            0 => random.word() >> random.below(64),
            _ => 0,
        };
        let end = entry.range().end + u128::from(gap);
        next = u64::try_from(end).ok();
        list.push(entry);
    }
    list
}

/// Something that a list and zeros are not, mostly: see `plain_kinds` for what comes of it.
fn damage(random: &mut Random, slices: &mut Slices, count: usize) {
    let room = slices[0].len();
    if room == 0 {
        return;
    }
    let field = random.below(4) as usize;
    if count == 0 || random.one_in(8) {
        // Behind the list, where there is room for it.
        let at = (count + random.below((room - count) as u64 + 1) as usize).min(room - 1);
        slices[field][at] = random.word() >> random.below(64);
        return;
    }
    let at = random.below(count as u64) as usize;
    let other = random.below(count as u64) as usize;
    let [index, order, word, marks] = slices;
    match random.below(13) {
        0 | 1 => [index, order, word, marks].into_iter().for_each(|slice| slice.swap(at, other)),
        2 => index[at] = index[other],
        3 => order[at] = (order[at] + 1 + random.below(3)).min(63),
        4 => order[at] = 64 << random.below(58),
        5 => marks[at] |= 8 << random.below(61),
        6 => word[at] = 0,
        7 => word[at] = 4 * random.below(300) + 2,
        8 => (word[at], order[at]) = (RESERVED, 1 + random.below(8)),
        9 => (word[at], order[at], marks[at]) = (RESERVED, 0, 1 + random.below(7)),
        10 if order[at] > 0 => index[at] |= 1 << random.below(order[at]),
        11 if at > 0 => index[at] = index[at - 1] + (1 << order[at - 1].min(63)) - 1,
        _ => slices[field][at] ^= 1 << random.below(64),
    }
}
