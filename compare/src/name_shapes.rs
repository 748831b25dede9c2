//! Pools of names by nearly the rules (P10): trees that differ from R344 to R346 in one respect and are right in all others.

use crate::pools::shuffle;
use reference::names::keys::{Key, List, NIBBLES};
use reference::names::pool::{
    base_words, block_place, pool_length, BASE_FIELDS, BLOCK_WORDS, LENGTH_FIELD, MOST_BLOCKS,
    SLOT_FIELDS, TIER_FIELD, VALUE_FIELD,
};
use reference::names::tree::SLOTS;
use reference::random::Random;

/// What the tree is made by.
#[derive(Clone, Copy, Debug, PartialEq, Eq, PartialOrd, Ord)]
pub enum Rule {
    /// R344 to R346.
    Right,
    /// Only so many keys are packed, not 16. Of 17 the last has no slot, and its leaf is one that nothing leads to.
    Packed(usize),
    /// No shortcuts.
    Unjoined,
    /// A run of one node is that node.
    OneApart,
    /// The root is in no run.
    RootApart,
    /// The first node of a run is in none.
    FirstApart,
    /// The last node of a run is in none.
    LastApart,
    /// A longer run is two shortcuts.
    Halves,
}

/// A node with one filled slot, or a shortcut in place of so many.
#[derive(Clone, Copy)]
enum Piece {
    Node,
    Shortcut(usize),
}

impl Rule {
    fn packed(self) -> usize {
        match self {
            Rule::Packed(most) => most,
            _ => SLOTS,
        }
    }

    /// What stands for a run of nodes, from the uppermost on. `depth` is how many nibbles its first node's block has.
    fn pieces(self, depth: usize, run: usize) -> Vec<Piece> {
        let joined = |run: usize| [Piece::Shortcut(run)].into_iter().filter(move |_| run > 0);
        match self {
            Rule::Unjoined => vec![Piece::Node; run],
            Rule::OneApart if run == 1 => vec![Piece::Node],
            Rule::FirstApart if run > 0 => {
                [Piece::Node].into_iter().chain(joined(run - 1)).collect()
            }
            Rule::RootApart if run > 0 && depth == 0 => {
                [Piece::Node].into_iter().chain(joined(run - 1)).collect()
            }
            Rule::LastApart if run > 0 => joined(run - 1).chain([Piece::Node]).collect(),
            Rule::Halves if run > 1 => joined(run / 2).chain(joined(run - run / 2)).collect(),
            _ => joined(run).collect(),
        }
    }
}

struct Grown {
    rule: Rule,
    blocks: Vec<[u64; BLOCK_WORDS]>,
}

impl Grown {
    /// The link to a new block; `depth` is how many nibbles of the key are those of its own.
    fn put(&mut self, depth: usize, key: &Key, value: u64, slots: &[u64]) -> u64 {
        let mut nibbles = *key.nibbles();
        nibbles[depth..].fill(0);
        let mut words = [0; BLOCK_WORDS];
        words[TIER_FIELD] = (NIBBLES - depth) as u64 + 1;
        words[VALUE_FIELD] = value;
        words[BASE_FIELDS..SLOT_FIELDS].copy_from_slice(&base_words(&nibbles));
        words[SLOT_FIELDS..SLOT_FIELDS + slots.len()].copy_from_slice(slots);
        self.blocks.push(words);
        self.blocks.len() as u64
    }

    /// What stands for the block of so many nibbles that has these keys.
    fn grow(&mut self, keys: &[(Key, u64)], depth: usize) -> u64 {
        let mut lower = depth;
        let nibble = |(key, _): &(Key, u64), at: usize| key.nibbles()[at];
        let first = keys[0];
        while keys.len() > self.rule.packed().max(1)
            && keys.iter().all(|key| nibble(key, lower) == nibble(&first, lower))
        {
            lower += 1;
        }
        let mut link = self.node(keys, lower);
        let mut at = lower;
        for piece in self.rule.pieces(depth, lower - depth).into_iter().rev() {
            link = match piece {
                Piece::Shortcut(length) => {
                    let shortcut = self.put(at, &first.0, 0, &[link]);
                    self.blocks[shortcut as usize - 1][LENGTH_FIELD] = length as u64;
                    at -= length;
                    shortcut
                }
                Piece::Node => {
                    at -= 1;
                    let mut slots = [0; SLOTS];
                    slots[usize::from(nibble(&first, at))] = link;
                    self.put(at, &first.0, keys.len() as u64, &slots)
                }
            };
        }
        link
    }

    fn node(&mut self, keys: &[(Key, u64)], depth: usize) -> u64 {
        let mut slots = [0; SLOTS];
        if keys.len() <= self.rule.packed() {
            for (at, (key, object)) in keys.iter().enumerate() {
                let leaf = self.put(NIBBLES, key, *object, &[]);
                slots.get_mut(at).into_iter().for_each(|slot| *slot = leaf);
            }
        } else {
            for child in keys.chunk_by(|(a, _), (b, _)| a.nibbles()[depth] == b.nibbles()[depth]) {
                let (key, object) = child[0];
                slots[usize::from(key.nibbles()[depth])] = match child.len() {
                    1 => self.put(NIBBLES, &key, object, &[]),
                    _ => self.grow(child, depth + 1),
                };
            }
        }
        self.put(depth, &keys[0].0, keys.len() as u64, &slots)
    }
}

/// The words of this list by the rule, under any numbering, with so many free blocks. None where there are too many.
pub fn words_by(rule: Rule, list: &List, spare: usize, random: &mut Random) -> Option<Vec<u64>> {
    let keys: Vec<(Key, u64)> = list.iter().map(|(key, object)| (*key, *object)).collect();
    let mut grown = Grown { rule, blocks: Vec::new() };
    let root = if keys.is_empty() { 0 } else { grown.grow(&keys, 0) };
    let count = grown.blocks.len() + spare;
    let mut numbers: Vec<usize> =
        Some((0..count).collect()).filter(|_| (1..=MOST_BLOCKS).contains(&count))?;
    shuffle(random, &mut numbers);
    let link = |link: u64| if link == 0 { 0 } else { 1 + numbers[link as usize - 1] as u64 };
    let mut words = vec![0; pool_length(count)];
    words[0] = count as u64;
    words[1] = link(root);
    for (mut block, number) in grown.blocks.into_iter().zip(&numbers) {
        block[SLOT_FIELDS..].iter_mut().for_each(|slot| *slot = link(*slot));
        words[block_place(*number)..][..BLOCK_WORDS].copy_from_slice(&block);
    }
    Some(words)
}
