//! Damaged pools are answer 2, any numbering is well-formed, any words are survived; and the check by another way.

use super::helpers::*;
use reference::names::calls::check;
use reference::random::Random;
use std::collections::BTreeSet;

/// Whether the words are well-formed, told by a walk over the links from the root, block by block. It shares nothing with the
/// code under test.
pub fn is_well_formed(words: &[u64]) -> bool {
    let mut walk = Walk { words, seen: BTreeSet::new() };
    let count = words.len() / 24;
    let good = match words[1] {
        0 => true,
        root => walk.below(root, "", true).is_some(),
    };
    let free =
        |number: &usize| words[at(*number, 0)..at(*number, 24)].iter().all(|word| *word == 0);
    words[0] == count as u64
        && good
        && (0..count).filter(|number| !walk.seen.contains(number)).all(|number| free(&number))
}

struct Walk<'a> {
    words: &'a [u64],
    seen: BTreeSet<usize>,
}

impl Walk<'_> {
    fn fields(&self, number: usize) -> &[u64] {
        &self.words[at(number, 0)..at(number, 24)]
    }

    /// A block that a link leads to, for the first time.
    fn enter(&mut self, link: u64) -> Option<usize> {
        let number = usize::try_from(link.checked_sub(1)?).ok()?;
        (number < self.words.len() / 24 && self.seen.insert(number)).then_some(number)
    }

    /// The number in the base, as 66 digits.
    fn base(&self, number: usize) -> Option<String> {
        let f = self.fields(number);
        let text = format!("{:02x}{:016x}{:016x}{:016x}{:016x}", f[7], f[6], f[5], f[4], f[3]);
        (text.len() == 66).then_some(text)
    }

    /// The digits of a leaf's key.
    fn leaf(&mut self, link: u64) -> Option<String> {
        let number = self.enter(link)?;
        let (fields, base) = (self.fields(number), self.base(number)?);
        let length = fields[7];
        let object = fields[2] % 2 == 1 || (fields[2] % 4 == 0 && fields[2] != 0);
        let rest = base.get(2 + 2 * length as usize..)?;
        let good = fields[..2] == [1, 0]
            && object
            && (1..=32).contains(&length)
            && rest.bytes().all(|digit| digit == b'0')
            && fields[8..].iter().all(|word| *word == 0);
        good.then_some(base)
    }

    /// How many keys stand under a link to the node, or the shortcut if there may be one, of the block of these digits.
    fn below(&mut self, link: u64, digits: &str, may_be_shortcut: bool) -> Option<u64> {
        let number = self.enter(link)?;
        let fields = self.fields(number).to_vec();
        let base = self.base(number)?;
        if fields[1] > 0 {
            let lower =
                base.get(..66 - usize::try_from(fields[0].checked_sub(1)?).ok()?.min(66))?;
            let good = may_be_shortcut
                && lower.starts_with(digits)
                && lower.len().checked_sub(digits.len())? as u64 == fields[1]
                && base == format!("{lower:0<66}")
                && fields[2] == 0
                && fields[9..].iter().all(|word| *word == 0);
            let keys = good.then(|| self.below(fields[8], lower, false))??;
            return (keys > 16).then_some(keys);
        }
        let good = fields[0] == 67 - digits.len() as u64 && base == format!("{digits:0<66}");
        let keys = good.then(|| self.slots(&fields[8..], fields[2], digits))??;
        (keys == fields[2] && (keys > 1 || digits.is_empty())).then_some(keys)
    }

    /// How many keys stand under the slots of a node that says it has so many.
    fn slots(&mut self, slots: &[u64], keys: u64, digits: &str) -> Option<u64> {
        if keys <= 16 {
            let (leaves, empty) = slots.split_at(keys as usize);
            let found: Option<Vec<String>> = leaves.iter().map(|link| self.leaf(*link)).collect();
            let found = found?;
            let good = keys > 0
                && empty.iter().all(|word| *word == 0)
                && found.is_sorted_by(|one, other| one < other)
                && found.iter().all(|key| key.starts_with(digits));
            return good.then_some(keys);
        }
        let mut total = 0;
        let mut filled = 0;
        let mut leads = 0;
        for (nibble, link) in slots.iter().enumerate().filter(|(_, link)| **link != 0) {
            let child = format!("{digits}{nibble:x}");
            let number = usize::try_from(link - 1).ok()?;
            let is_leaf = *self.words.get(2 + number.checked_mul(24)?)? == 1;
            if is_leaf {
                self.leaf(*link).filter(|key| key.starts_with(&child))?;
                total += 1;
            } else {
                total += self.below(*link, &child, true)?;
                leads += 1;
            }
            filled += 1;
        }
        (filled > 1 || leads == 0).then_some(total)
    }
}

fn assert_damaged(words: &[u64]) {
    assert_eq!(check(words), outcome(2, 0));
    assert!(!is_well_formed(words));
}

fn assert_well_formed(words: &[u64]) {
    assert_eq!(check(words), outcome(0, 0));
    assert!(is_well_formed(words));
}

/// The root, a shortcut under it, a node of 17 keys, one of 2 keys; two free blocks.
fn all_kinds() -> Vec<u64> {
    let mut names = sixteen(24);
    names.put(&[0x01], 33, 4);
    names.put(&[0xAA; 16], 24, 3);
    names.words
}

/// A word is changed: only another object is as good as the one before. Another key can be: there both checks agree.
#[test]
fn every_word_counts() {
    for words in [all_kinds(), sixteen(18).words, Names::cleared(2).words] {
        assert_well_formed(&words);
        for place in 0..words.len() {
            let is = words[place];
            let (number, field) = (place.saturating_sub(2) / 24, (place + 22) % 24);
            let in_leaf = place >= 2 && words[at(number, 0)] == 1;
            for other in [0, is ^ 1, is ^ 2, is + 1, is + 4, is ^ 1 << 63, u64::MAX, 1, 3, 18] {
                let mut damaged = words.clone();
                damaged[place] = other;
                let object = other % 2 == 1 || other % 4 == 0 && other > 0;
                let fine = match field {
                    3..8 if in_leaf => is_well_formed(&damaged),
                    _ => other == is || in_leaf && field == 2 && object,
                };
                assert_eq!(
                    check(&damaged),
                    outcome(if fine { 0 } else { 2 }, 0),
                    "{place} {other}"
                );
                assert_eq!(is_well_formed(&damaged), fine, "{place} {other}");
            }
        }
    }
}

/// The last of the keys of one byte can be a longer one, and the only key of 16 to 31 bytes any such key.
#[test]
fn another_key_in_the_same_place() {
    let mut words = sixteen(18).words;
    words[at(16, 7)] = 5;
    assert_well_formed(&words);
    words[at(15, 7)] = 6;
    assert_damaged(&words);
    let mut words = all_kinds();
    words[at(22, 5)] = 0;
    assert_well_formed(&words);
    words[at(22, 7)] = 31;
    assert_well_formed(&words);
    words[at(22, 7)] = 32;
    assert_damaged(&words);
    words[at(22, 7)] = 7;
    assert_damaged(&words);
}

fn swap_blocks(words: &mut [u64], one: usize, other: usize) {
    for field in 0..24 {
        words.swap(at(one, field), at(other, field));
    }
}

/// Two numbers exchanged everywhere.
fn renumber(words: &mut [u64], one: usize, other: usize) {
    swap_blocks(words, one, other);
    let (a, b) = (one as u64 + 1, other as u64 + 1);
    let exchanged = |link: u64| {
        if link == a {
            b
        } else if link == b {
            a
        } else {
            link
        }
    };
    words[1] = exchanged(words[1]);
    for number in 0..words.len() / 24 {
        for slot in 8..24 {
            words[at(number, slot)] = exchanged(words[at(number, slot)]);
        }
    }
}

#[test]
fn any_numbering_is_well_formed() {
    let mut random = Random::new(3);
    let mut words = all_kinds();
    for _ in 0..200 {
        renumber(&mut words, random.below(24) as usize, random.below(24) as usize);
        assert_well_formed(&words);
    }
    // Blocks exchanged, and no links: damage, unless both are free.
    for (one, other) in [(0, 18), (1, 2), (5, 17), (18, 21)] {
        let mut words = all_kinds();
        swap_blocks(&mut words, one, other);
        assert_damaged(&words);
    }
}

/// 17 keys of one byte with other trees than the one prescribed.
#[test]
fn trees_that_are_not_the_prescribed_one() {
    let under = |root: Vec<Stands>| {
        let mut blocks = sixteen_leaves();
        let slots = [(0, 19)].into_iter().chain((1..16).map(|nibble| (nibble, nibble + 1)));
        blocks.push(node(18, "01", 17, &slots.collect::<Vec<_>>()));
        blocks.push(node(19, "010", 2, &[(0, 1), (1, 20)]));
        blocks.push(leaf(20, "0101", 33));
        blocks.extend(root);
        words(24, Some(17), &blocks)
    };
    assert_well_formed(&under(vec![shortcut(17, "", "01", 18)]));
    // The run as nodes, as two shortcuts, half and half, not at all, and too long.
    assert_damaged(&under(vec![node(17, "", 17, &[(0, 21)]), node(21, "0", 17, &[(1, 18)])]));
    assert_damaged(&under(vec![shortcut(17, "", "0", 21), shortcut(21, "0", "01", 18)]));
    assert_damaged(&under(vec![shortcut(17, "", "0", 21), node(21, "0", 17, &[(1, 18)])]));
    assert_damaged(&under(vec![node(17, "", 17, &[(0, 21)]), shortcut(21, "0", "01", 18)]));
    assert_damaged(&under(vec![shortcut(17, "0", "01", 18)]));
    assert_damaged(&under(vec![shortcut(17, "", "010", 18)]));
    assert_damaged(&under(vec![shortcut(17, "", "01", 19)]));
    // A block in use beside the tree: a node, a shortcut, a second leaf of a key, a leaf of another.
    for more in [
        node(22, "02", 2, &[(0, 1), (1, 2)]),
        shortcut(22, "", "01", 18),
        leaf(22, "0101", 33),
        leaf(22, "0102", 33),
        node(22, "01", 17, &[]),
    ] {
        assert_damaged(&under(vec![shortcut(17, "", "01", 18), more]));
    }
}

/// 16 keys told apart by their nibble, and a key in two leaves.
#[test]
fn sixteen_keys_not_packed() {
    let mut blocks = sixteen_leaves();
    blocks.push(shortcut(0, "", "01", 17));
    blocks.push(node(17, "01", 16, &packed(1..17)));
    assert_damaged(&words(18, Some(0), &blocks));

    let two = |one: &str, other: &str| {
        let blocks = [node(0, "", 2, &[(0, 1), (1, 2)]), leaf(1, one, 5), leaf(2, other, 5)];
        words(3, Some(0), &blocks)
    };
    assert_well_formed(&two("0161", "0162"));
    assert_damaged(&two("0162", "0161"));
    assert_damaged(&two("0161", "0161"));
    // No keys: length 0 and 33, or bytes behind the length.
    assert_damaged(&two("0061", "0162"));
    assert_damaged(&two("00", "0162"));
    assert_damaged(&two("0161", "21"));
    assert_damaged(&two("0161", "016201"));
    assert_damaged(&two("0161", &format!("01{:064x}", 1)));
    // A node with a gap, one that starts with slot 1, and a root without keys.
    let gap = [node(0, "", 2, &[(0, 1), (2, 2)]), leaf(1, "0161", 5), leaf(2, "0162", 5)];
    assert_damaged(&words(3, Some(0), &gap));
    assert_damaged(&words(2, Some(0), &[node(0, "", 1, &[(1, 1)]), leaf(1, "0161", 5)]));
    assert_damaged(&words(2, Some(0), &[node(0, "", 0, &[])]));
    assert_damaged(&words(2, Some(0), &[leaf(0, "0161", 5)]));
    assert_damaged(&words(2, Some(0), &[node(0, "", 1, &[(0, 0)])]));
}

/// Both ways to check agree on words with up to four random changes, most of them small or taken from elsewhere.
#[test]
fn both_checks_agree_on_random_damage() {
    let mut random = Random::new(11);
    let (mut good, mut bad) = (0, 0);
    for _ in 0..4000 {
        let mut words = [all_kinds(), sixteen(18).words][random.below(2) as usize].clone();
        for _ in 0..1 + random.below(4) {
            let place = random.below(words.len() as u64) as usize;
            let from = random.below(words.len() as u64) as usize;
            match random.below(5) {
                0 => words[place] = random.word() >> random.below(64),
                1 => words[place] ^= 1 << random.below(64),
                2 => words[place] = words[from],
                3 => words.swap(place, from),
                _ => {
                    let blocks = words.len() as u64 / 24;
                    let (one, other) = (random.below(blocks), random.below(blocks));
                    renumber(&mut words, one as usize, other as usize);
                }
            }
        }
        let answer = check(&words).answer;
        assert_eq!(answer == 0, is_well_formed(&words));
        good += u64::from(answer == 0);
        bad += u64::from(answer == 2);
    }
    assert!(good > 300 && bad > 1000, "{good} {bad}");
}

#[test]
fn any_words_are_survived() {
    let mut random = Random::new(5);
    for _ in 0..300 {
        let count = 1 + random.below(5) as usize;
        let mut words: Vec<u64> =
            (0..2 + 24 * count).map(|_| random.word() >> random.below(64)).collect();
        words[0] = count as u64;
        words[1] = random.below(count as u64 + 2);
        for number in 0..count {
            words[at(number, 0)] = random.below(70);
            words[at(number, 1)] = random.below(3);
        }
        assert_damaged(&words);
    }
}
