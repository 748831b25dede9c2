//! Reads the words of a pool of names into a tree, and lists what is wrong with them.
//!
//! There are no findings exactly if the pool is well-formed; the library's own check is the judge, and the tests hold
//! this one to it.

use std::fmt;
use xapool_host::layout::{
    block_place, BLOCK_SLOTS, BLOCK_SLOT_FIELD, BLOCK_WORDS, NAMES_ANCHOR_WORDS, ROOT_TIER,
    VALUE_FIELD,
};
use xapool_host::{Block, Key, Names, Word, KEY_NUMBER_BYTES, MOST_BLOCKS};

/// A number of 66 nibbles, highest first.
pub type Number = [u8; KEY_NUMBER_BYTES];

/// Something wrong, with the place of the word.
#[derive(Clone, Debug, PartialEq, Eq)]
pub struct Finding {
    pub place: usize,
    pub message: String,
}

impl fmt::Display for Finding {
    fn fmt(&self, f: &mut fmt::Formatter) -> fmt::Result {
        write!(f, "word {}: {}", self.place, self.message)
    }
}

/// What the walk from the root met.
#[derive(Clone, Debug, PartialEq, Eq)]
pub enum Item {
    Leaf {
        number: usize,
        key: Key,
        object: Word,
    },
    Node(Node),
    Shortcut {
        number: usize,
        upper: usize,
        to: Box<Node>,
    },
    /// A word that leads to nothing that may stand here.
    Bad(u64),
}

/// A node with its filled slots.
#[derive(Clone, Debug, PartialEq, Eq)]
pub struct Node {
    pub number: usize,
    pub tier: usize,
    /// The first number of its block.
    pub base: Number,
    /// Its count of keys as it stands.
    pub keys: u64,
    pub slots: Vec<(usize, Item)>,
}

impl Item {
    /// The leaves below, and itself.
    #[must_use]
    pub fn leaves(&self) -> usize {
        match self {
            Item::Leaf { .. } => 1,
            Item::Node(node) => node.leaves(),
            Item::Shortcut { to, .. } => to.leaves(),
            Item::Bad(_) => 0,
        }
    }

    fn is_whole(&self) -> bool {
        match self {
            Item::Leaf { .. } => true,
            Item::Node(node) => node.is_whole(),
            Item::Shortcut { to, .. } => to.is_whole(),
            Item::Bad(_) => false,
        }
    }
}

impl Node {
    #[must_use]
    pub fn leaves(&self) -> usize {
        self.slots.iter().map(|(_, item)| item.leaves()).sum()
    }

    /// Whether nothing below is lost.
    fn is_whole(&self) -> bool {
        self.slots.iter().all(|(_, item)| item.is_whole())
    }
}

/// All that was read. `blocks` is none if no pool of names has so many words.
#[derive(Clone, Debug, PartialEq, Eq)]
pub struct Report {
    pub words: usize,
    pub blocks: Option<usize>,
    pub in_use: usize,
    pub root: Option<Item>,
    pub findings: Vec<Finding>,
}

/// Reads a pool of names.
#[must_use]
pub fn inspect(names: &Names) -> Report {
    let words = names.words();
    let Some(count) = names.block_count() else {
        let pool = format!("{NAMES_ANCHOR_WORDS} + {BLOCK_WORDS} N with N from 1 to {MOST_BLOCKS}");
        let message = format!("{} words, not {pool}", words.len());
        let findings = vec![Finding { place: 0, message }];
        return Report { words: words.len(), blocks: None, in_use: 0, root: None, findings };
    };
    let blocks = names.blocks().collect();
    let mut walk = Walk { words, blocks, seen: vec![false; count], findings: Vec::new() };
    if words[0] != count as u64 {
        walk.find(0, format!("N is {}, expected {count}", words[0]));
    }
    let root = walk.root();
    walk.unreached();
    let mut findings = walk.findings;
    findings.sort_by_key(|finding| finding.place);
    let in_use = names.blocks_in_use();
    Report { words: words.len(), blocks: Some(count), in_use, root, findings }
}

struct Walk<'a> {
    words: &'a [u64],
    blocks: Vec<Option<Block>>,
    seen: Vec<bool>,
    findings: Vec<Finding>,
}

impl Walk<'_> {
    fn find(&mut self, place: usize, message: String) {
        self.findings.push(Finding { place, message });
    }

    fn root(&mut self) -> Option<Item> {
        if self.words[1] == 0 {
            return None;
        }
        let item = self.item(1, ROOT_TIER, [0; KEY_NUMBER_BYTES]);
        match &item {
            Item::Leaf { .. } => self.find(1, "the root is a leaf".into()),
            Item::Node(node) if node.slots.is_empty() => {
                self.find(1, "the root is a node without keys".into());
            }
            _ => {}
        }
        Some(item)
    }

    /// The block that the word at this place leads to, unless another led there.
    fn reach(&mut self, place: usize) -> Option<usize> {
        let word = self.words[place];
        let number = usize::try_from(word).ok().and_then(|word| word.checked_sub(1));
        let Some(number) = number.filter(|number| *number < self.seen.len()) else {
            self.find(place, format!("{word} leads to no block of this pool"));
            return None;
        };
        if std::mem::replace(&mut self.seen[number], true) {
            self.find(place, format!("block {number} is reached a second time"));
            return None;
        }
        Some(number)
    }

    /// Where the word at this place leads: a leaf, or the node of a tier whose block begins with a number, or a shortcut
    /// from there on. No block is read twice and the tier falls, so this ends.
    fn item(&mut self, place: usize, tier: usize, base: Number) -> Item {
        let bad = Item::Bad(self.words[place]);
        let Some(number) = self.reach(place) else {
            return bad;
        };
        match self.blocks[number].clone() {
            Some(Block::Leaf { key, object }) => self.leaf(number, key, object),
            Some(Block::Node { tier: is, base: begins, keys, slots }) if tier > 0 => {
                self.expect_node(number, (is, begins), (tier, base));
                Item::Node(self.node(number, (tier, base), keys, &slots[..]))
            }
            Some(Block::Shortcut { tier: lower, skip, base: begins, .. })
                if lower + skip == tier
                    && is_in(&begins, &base, tier)
                    && begins_one(&begins, lower) =>
            {
                self.shortcut(number, tier, (lower, begins)).unwrap_or(bad)
            }
            Some(Block::Free) => {
                self.find(place, format!("block {number}, which this leads to, is free"));
                bad
            }
            Some(Block::Node { .. } | Block::Shortcut { .. }) => {
                let what = format!("block {number} does not stand for {}", of_block(tier, &base));
                self.find(block_place(number), what);
                bad
            }
            None => {
                let what = format!("block {number} has not the words of a leaf, node or shortcut");
                self.find(block_place(number), what);
                bad
            }
        }
    }

    fn leaf(&mut self, number: usize, key: Key, object: Word) -> Item {
        if !object.is_entry() {
            let message = format!("leaf {number} has {object}, which is no object");
            self.find(block_place(number) + VALUE_FIELD, message);
        }
        Item::Leaf { number, key, object }
    }

    fn expect_node(&mut self, number: usize, is: (usize, Number), expected: (usize, Number)) {
        if is != expected {
            let [is, expected] = [is, expected].map(|(tier, base)| of_block(tier, &base));
            self.find(
                block_place(number),
                format!("node {number} is of {is}, expected {expected}"),
            );
        }
    }

    /// What stands below a shortcut is a node that no shortcut could stand for.
    fn shortcut(
        &mut self,
        number: usize,
        upper: usize,
        (tier, base): (usize, Number),
    ) -> Option<Item> {
        let place = block_place(number) + BLOCK_SLOT_FIELD;
        match self.item(place, tier, base) {
            Item::Node(node) => {
                if node.is_whole() && node.leaves() <= BLOCK_SLOTS {
                    let message = format!("shortcut {number} leads to a node of 16 keys or fewer");
                    self.find(place, message);
                }
                Some(Item::Shortcut { number, upper, to: Box::new(node) })
            }
            Item::Bad(_) => None,
            _ => {
                self.find(place, format!("shortcut {number} does not lead to a node"));
                None
            }
        }
    }

    fn node(
        &mut self,
        number: usize,
        (tier, base): (usize, Number),
        keys: u64,
        slots: &[Option<usize>],
    ) -> Node {
        let first = block_place(number) + BLOCK_SLOT_FIELD;
        let filled = (0..slots.len()).filter(|slot| slots[*slot].is_some());
        let item =
            |slot: usize| (slot, self.item(first + slot, tier - 1, with_nibble(base, tier, slot)));
        let slots = filled.map(item).collect();
        let node = Node { number, tier, base, keys, slots };
        // What is lost below has a finding of its own, and takes its keys along.
        if node.is_whole() {
            self.keys_of(&node);
        }
        node
    }

    /// Compares a node with what its keys prescribe.
    fn keys_of(&mut self, node: &Node) {
        let (leaves, place) = (node.leaves(), block_place(node.number));
        if node.keys != leaves as u64 {
            let message = format!("node {} has {} keys, expected {leaves}", node.number, node.keys);
            self.find(place + VALUE_FIELD, message);
        }
        if leaves > BLOCK_SLOTS && node.slots.len() == 1 {
            let message = format!("node {} has one way alone: it is for a shortcut", node.number);
            self.find(place, message);
        }
        let mut before = None;
        for (at, (slot, item)) in node.slots.iter().enumerate() {
            let wrong = match (item, leaves > BLOCK_SLOTS) {
                (Item::Leaf { key, .. }, true) => {
                    let below = with_nibble(node.base, node.tier, *slot);
                    !is_in(&key.number(), &below, node.tier - 1)
                }
                (Item::Leaf { key, .. }, false) => {
                    let follows = before.replace(*key).is_none_or(|before| before < *key);
                    at != *slot || !follows || !is_in(&key.number(), &node.base, node.tier)
                }
                (below, of_many) => !of_many || below.leaves() < 2,
            };
            if wrong {
                let message = format!("node {} has slot {slot} otherwise", node.number);
                self.find(place + BLOCK_SLOT_FIELD + slot, message + " than its keys prescribe");
            }
        }
    }

    /// Blocks that nothing leads to are all zeros. Of many the first is named: a lost link loses all below it.
    fn unreached(&mut self) {
        let lost = |number: &usize| {
            !self.seen[*number] && !matches!(self.blocks[*number], Some(Block::Free))
        };
        let lost: Vec<usize> = (0..self.seen.len()).filter(lost).collect();
        let Some(first) = lost.first() else {
            return;
        };
        let more = match lost.len() - 1 {
            0 => String::new(),
            more => format!(", nor to {more} more that are"),
        };
        let message = format!("nothing leads to block {first}, which is in use{more}");
        self.find(block_place(*first), message);
    }
}

/// The nibble at a place, from the highest on.
fn nibble(number: &Number, at: usize) -> u8 {
    let byte = number[at / 2];
    if at.is_multiple_of(2) {
        byte >> 4
    } else {
        byte & 15
    }
}

/// Whether a number is in the block of a tier that begins with another.
fn is_in(number: &Number, base: &Number, tier: usize) -> bool {
    (0..ROOT_TIER - tier).all(|at| nibble(number, at) == nibble(base, at))
}

/// Whether a block of a tier begins with this number.
fn begins_one(number: &Number, tier: usize) -> bool {
    (ROOT_TIER - tier..ROOT_TIER).all(|at| nibble(number, at) == 0)
}

/// Where the block begins that a slot of a node leads to.
fn with_nibble(mut base: Number, tier: usize, slot: usize) -> Number {
    let at = ROOT_TIER - tier;
    base[at / 2] |= (slot as u8) << if at.is_multiple_of(2) { 4 } else { 0 };
    base
}

/// A block by its tier and the nibbles that all its numbers begin with.
#[must_use]
pub fn of_block(tier: usize, base: &Number) -> String {
    let nibbles = nibbles_of(tier, base);
    let shown = if nibbles.is_empty() { "-" } else { &nibbles };
    format!("tier {tier}, nibbles {shown}")
}

/// These nibbles as hex digits; of tier 66 there are none.
#[must_use]
pub fn nibbles_of(tier: usize, base: &Number) -> String {
    (0..ROOT_TIER - tier).map(|at| format!("{:x}", nibble(base, at))).collect()
}
