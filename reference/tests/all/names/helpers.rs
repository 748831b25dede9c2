//! Pools of names under test, and their words by R352 to R358.

use reference::calls::Outcome;
use reference::names::calls::{check, clear, delete, insert, lookup, perform};
use reference::names::command::Call;
use reference::names::pool::State;
use reference::names::recover::recover;

pub const BLOCK_WORDS: usize = 24;

/// The place of a field of a block: tier + 1 is field 0, a shortcut's nodes 1, the value 2, the base 3 to 7, the slots
/// from 8 on.
pub fn at(number: usize, field: usize) -> usize {
    2 + BLOCK_WORDS * number + field
}

pub fn outcome(answer: u64, number: u64) -> Outcome {
    Outcome { answer, number }
}

/// A number of 66 nibbles that begins with these, as words: the lowest first.
pub fn base(nibbles: &str) -> [u64; 5] {
    let digits = format!("{nibbles:0<66}");
    [50..66, 34..50, 18..34, 2..18, 0..2]
        .map(|range| u64::from_str_radix(&digits[range], 16).expect("nibbles"))
}

/// A block of the pool: its number, and the fields that are not 0.
pub struct Stands {
    number: usize,
    fields: Vec<(usize, u64)>,
}

fn stands(number: usize, first: [u64; 3], nibbles: &str, slots: &[(usize, usize)]) -> Stands {
    let first = (0..3).zip(first);
    let base = (3..8).zip(base(nibbles));
    let slots = slots.iter().map(|(slot, number)| (8 + slot, *number as u64 + 1));
    Stands { number, fields: first.chain(base).chain(slots).collect() }
}

/// The leaf of a key, as hex digits with the length byte.
pub fn leaf(number: usize, key: &str, object: u64) -> Stands {
    stands(number, [1, 0, object], key, &[])
}

/// The node of a block: the nibbles that its keys begin with, how many keys there are, and which slots lead to which numbers.
pub fn node(number: usize, nibbles: &str, keys: u64, slots: &[(usize, usize)]) -> Stands {
    stands(number, [67 - nibbles.len() as u64, 0, keys], nibbles, slots)
}

/// The shortcut from a block down to a node, by the nibbles of both, and the node's number.
pub fn shortcut(number: usize, upper: &str, lower: &str, to: usize) -> Stands {
    assert!(lower.starts_with(upper));
    let length = (lower.len() - upper.len()) as u64;
    stands(number, [67 - lower.len() as u64, length, 0], lower, &[(0, to)])
}

/// Slots from 0 on that lead to these numbers.
pub fn packed(numbers: impl IntoIterator<Item = usize>) -> Vec<(usize, usize)> {
    (0..).zip(numbers).collect()
}

/// The words of a pool of so many blocks with this root.
pub fn words(count: usize, root: Option<usize>, blocks: &[Stands]) -> Vec<u64> {
    let mut words = vec![0; 2 + BLOCK_WORDS * count];
    words[0] = count as u64;
    words[1] = root.map_or(0, |number| number as u64 + 1);
    for block in blocks {
        for (field, word) in &block.fields {
            words[at(block.number, *field)] = *word;
        }
    }
    words
}

pub struct Names {
    pub words: Vec<u64>,
}

impl Names {
    pub fn cleared(count: usize) -> Names {
        let mut words = vec![0xDEAD_BEEF; 2 + BLOCK_WORDS * count];
        assert_eq!(clear(&mut words), outcome(0, 0));
        Names { words }
    }

    pub fn state(&self) -> State {
        recover(&self.words).expect("a well-formed pool")
    }

    /// How many blocks are in use.
    pub fn used(&self) -> usize {
        self.state().places.iter().flatten().count()
    }

    /// An insert that needs so many blocks and gets them.
    pub fn put(&mut self, key: &[u8], object: u64, needed: usize) {
        let call = Call::Insert { key: key.to_vec(), object };
        assert_eq!(perform(&mut self.words, &call), (outcome(0, object), Some(needed)));
        assert_eq!(check(&self.words), outcome(0, 0));
        assert_eq!(lookup(&self.words, key), outcome(0, object));
    }

    /// A delete that gives this object, needs so many blocks and gets them.
    pub fn take(&mut self, key: &[u8], object: u64, needed: usize) {
        let call = Call::Delete { key: key.to_vec() };
        assert_eq!(perform(&mut self.words, &call), (outcome(0, object), Some(needed)));
        assert_eq!(check(&self.words), outcome(0, 0));
        assert_eq!(lookup(&self.words, key), outcome(10, 0));
    }

    /// A call that needs so many blocks and does not get them.
    pub fn short(&mut self, call: Call, needed: usize) {
        let before = self.words.clone();
        assert_eq!(perform(&mut self.words, &call), (outcome(11, 0), Some(needed)));
        assert_eq!(self.words, before);
    }

    pub fn short_insert(&mut self, key: &[u8], needed: usize) {
        self.short(Call::Insert { key: key.to_vec(), object: 7 }, needed);
        let before = self.words.clone();
        assert_eq!(insert(&mut self.words, key, 7), outcome(11, 0));
        assert_eq!(self.words, before);
    }

    pub fn short_delete(&mut self, key: &[u8], needed: usize) {
        self.short(Call::Delete { key: key.to_vec() }, needed);
        let before = self.words.clone();
        assert_eq!(delete(&mut self.words, key), outcome(11, 0));
        assert_eq!(self.words, before);
    }

    pub fn assert_words(&self, expected: &[u64]) {
        for (place, (is, should)) in self.words.iter().zip(expected).enumerate() {
            let (block, field) = ((place.max(2) - 2) / BLOCK_WORDS, (place + 22) % BLOCK_WORDS);
            assert_eq!(is, should, "word {place}: block {block}, field {field}");
        }
        assert_eq!(self.words.len(), expected.len());
    }
}

/// The keys of one byte 0x00, 0x10, .. 0xf0 with the objects 1, 3, .. 31: node 0 is the root, leaves 1 to 16.
pub fn sixteen(count: usize) -> Names {
    let mut names = Names::cleared(count);
    for n in 0..16 {
        names.put(&[16 * n], 2 * u64::from(n) + 1, if n == 0 { 2 } else { 1 });
    }
    names
}

/// The leaves of `sixteen`.
pub fn sixteen_leaves() -> Vec<Stands> {
    (0..16).map(|n| leaf(n + 1, &format!("01{n:x}0"), 2 * n as u64 + 1)).collect()
}
