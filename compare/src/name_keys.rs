//! Keys for pools of names (P10): families that lie close together or far apart, and keys that miss one by little.

use reference::names::keys::MOST_KEY_BYTES;
use reference::random::Random;

/// How the keys of one pool are made.
#[derive(Clone, Copy, Debug, PartialEq, Eq)]
pub enum Family {
    /// One or two bytes.
    Short,
    /// A common start of up to 31 bytes, then a few that differ.
    Close,
    /// Names as files have them.
    Files,
    /// Many keys under one long start, and one that leaves it at this nibble and at that.
    Splits,
    /// Groups of 16 and 17 keys.
    Groups,
    /// A group far down, and at most one key that leaves its start.
    Runs,
    /// The starts of one long key.
    Starts,
    /// Any bytes, of any length, often 1 or 32.
    Any,
}

pub const FAMILIES: [Family; 8] = [
    Family::Short,
    Family::Close,
    Family::Files,
    Family::Splits,
    Family::Groups,
    Family::Runs,
    Family::Starts,
    Family::Any,
];

/// So many keys or some more; some may come twice.
pub fn keys(random: &mut Random, family: Family, count: usize) -> Vec<Vec<u8>> {
    let each = |random: &mut Random, key: &dyn Fn(&mut Random) -> Vec<u8>| {
        (0..count).map(|_| key(random)).collect()
    };
    let model = any_key(random);
    match family {
        Family::Short => each(random, &|random| {
            let length = 1 + random.below(2) as usize;
            (0..length).map(|_| small_byte(random)).collect()
        }),
        Family::Close => {
            let (length, model) = (1 + random.below(31) as usize, long_key(random));
            let more = 1 + random.below((32 - length as u64).min(3)) as usize;
            each(random, &|random| {
                let tail = (0..more).map(|_| small_byte(random));
                model[..length].iter().copied().chain(tail).collect()
            })
        }
        Family::Files => each(random, &file_name),
        Family::Splits => splits(random, &model, count),
        Family::Groups => groups(random, count),
        Family::Runs => run(random, &model),
        Family::Starts => {
            let model = long_key(random);
            each(random, &|random| {
                let mut key = model[..1 + random.below(32) as usize].to_vec();
                let last = key.len() - 1;
                key[last] = key[last].wrapping_add(random.below(3) as u8);
                key
            })
        }
        Family::Any => each(random, &any_key),
    }
}

fn long_key(random: &mut Random) -> Vec<u8> {
    let fill = [0, 0xFF, random.word() as u8][random.below(3) as usize];
    let any = random.one_in(2);
    (0..MOST_KEY_BYTES).map(|_| if any { random.word() as u8 } else { fill }).collect()
}

fn any_key(random: &mut Random) -> Vec<u8> {
    let length = [1, MOST_KEY_BYTES, 1 + random.below(32) as usize][random.below(3) as usize];
    let any = !random.one_in(4);
    (0..length).map(|_| if any { random.word() as u8 } else { 0 }).collect()
}

/// Nibbles that are mostly small.
fn small_byte(random: &mut Random) -> u8 {
    let mut nibble = || {
        let limit = if random.one_in(3) { 16 } else { 5 };
        random.below(limit) as u8
    };
    16 * nibble() + nibble()
}

fn file_name(random: &mut Random) -> Vec<u8> {
    let stem = ["IMG_", "report-2024-", "usr/share/doc/", "a", "backup.of.the.old.disk."];
    let stem = stem[random.below(5) as usize];
    let digits = 1 + random.below(4) as usize;
    let number = random.below(10_u64.pow(digits as u32));
    let end = [".JPG", ".pdf", "", "/"][random.below(4) as usize];
    let name = format!("{stem}{number:0digits$}{end}");
    name.into_bytes().into_iter().take(MOST_KEY_BYTES).collect()
}

pub fn nibble(key: &[u8], at: usize) -> u8 {
    key[at / 2] >> (4 * (1 - at % 2)) & 15
}

pub fn set_nibble(key: &mut [u8], at: usize, nibble: u8) {
    let shift = 4 * (1 - at % 2);
    key[at / 2] = key[at / 2] & !(15 << shift) | nibble << shift;
}

/// Keys of the model's length that are like it before this nibble, at most 64, all of them different.
fn group(random: &mut Random, model: &[u8], at: usize, count: usize) -> Vec<Vec<u8>> {
    let free = 2 * model.len() - at;
    let most = if free > 1 { 64 } else { 16 };
    let mut numbers: Vec<usize> = (0..most).collect();
    let wide = random.one_in(2);
    (0..count.min(most))
        .map(|_| {
            let number = numbers.swap_remove(random.below(numbers.len() as u64) as usize);
            let mut key = model.to_vec();
            set_nibble(&mut key, at, (number % 16) as u8);
            let second = if wide { 2 * model.len() - 1 } else { at + 1 };
            if free > 1 {
                set_nibble(&mut key, second, (number / 16 * 5) as u8);
            }
            key
        })
        .collect()
}

/// Like the model before this nibble, another there, and anything or zeros behind it.
fn leaves_at(random: &mut Random, model: &[u8], at: usize) -> Vec<u8> {
    let mut key = model.to_vec();
    let other = nibble(model, at) ^ (1 + random.below(15) as u8);
    set_nibble(&mut key, at, other);
    let fill = random.below(16) as u8;
    (at + 1..2 * key.len()).for_each(|at| set_nibble(&mut key, at, fill));
    key
}

fn splits(random: &mut Random, model: &[u8], count: usize) -> Vec<Vec<u8>> {
    let deepest = 2 * model.len() - 2;
    let size = 17 + random.below(8) as usize;
    let mut keys = group(random, model, deepest, size);
    let times = [1, 1, 2, 8][random.below(4) as usize];
    for at in (0..deepest).rev().take(count) {
        if random.one_in(times) {
            keys.push(leaves_at(random, model, at));
        }
    }
    keys
}

fn groups(random: &mut Random, count: usize) -> Vec<Vec<u8>> {
    let mut keys = Vec::new();
    while keys.len() < count {
        let mut model = any_key(random);
        if random.one_in(2) {
            model.resize(3, 0);
        }
        let at = random.below(2 * model.len() as u64 - 1) as usize;
        let size = [15, 16, 17, 18][random.below(4) as usize];
        keys.extend(group(random, &model, at, size));
    }
    keys
}

fn run(random: &mut Random, model: &[u8]) -> Vec<Vec<u8>> {
    let model = if random.one_in(2) { long_key(random) } else { model.to_vec() };
    let at = random.below(2 * model.len() as u64 - 1) as usize;
    let size = 17 + random.below(3) as usize;
    let mut keys = group(random, &model, at, size);
    if at > 0 && random.one_in(2) {
        let above = random.below(at as u64) as usize;
        keys.push(leaves_at(random, &model, above));
    }
    if random.one_in(4) {
        keys.push(any_key(random));
    }
    keys
}

/// A word that an entry may have.
pub fn object(random: &mut Random) -> u64 {
    let word = random.word() >> random.below(64);
    match random.below(2) {
        0 => word | 1,
        _ => (word & !3).max(4),
    }
}

/// A key to look up where these are: one of them, one that misses it by little, or one that is too short or too long.
pub fn asked(random: &mut Random, keys: &[Vec<u8>]) -> Vec<u8> {
    let any = any_key(random);
    let mut key = match keys {
        [] => any,
        _ => keys[random.below(keys.len() as u64) as usize].clone(),
    };
    match random.below(16) {
        0..=4 => {}
        5..=7 => {
            let at = random.below(2 * key.len() as u64) as usize;
            let other = nibble(&key, at) ^ (1 + random.below(15) as u8);
            set_nibble(&mut key, at, other);
        }
        8 | 9 => key.truncate(random.below(key.len() as u64) as usize),
        10 => key.push([0, 0, random.word() as u8][random.below(3) as usize]),
        11 => key.resize(MOST_KEY_BYTES, 0),
        12 => key = Vec::new(),
        13 => key.resize(MOST_KEY_BYTES + 1, 0),
        14 => key.resize(40, random.word() as u8),
        _ => key = any_key(random),
    }
    key
}
