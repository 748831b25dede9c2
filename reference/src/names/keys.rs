//! Keys as numbers of 66 nibbles, blocks of such numbers, and the plain list.

use std::collections::BTreeMap;

pub const MOST_KEY_BYTES: usize = 32;

/// Two of the length byte, two for each of 32 bytes.
pub const NIBBLES: usize = 66;

/// A key: the nibbles of its length byte and of its bytes, high nibble first, then zeros. Keys compare as these numbers.
#[derive(Clone, Copy, Debug, PartialEq, Eq, PartialOrd, Ord)]
pub struct Key([u8; NIBBLES]);

/// The plain list: each key once, with its object.
pub type List = BTreeMap<Key, u64>;

impl Key {
    /// The key of these bytes; none if there are too few or too many of them.
    pub fn new(bytes: &[u8]) -> Option<Key> {
        if bytes.is_empty() || bytes.len() > MOST_KEY_BYTES {
            return None;
        }
        let mut nibbles = [0; NIBBLES];
        let all = [&[bytes.len() as u8], bytes].concat();
        for (at, byte) in all.into_iter().enumerate() {
            nibbles[2 * at] = byte / 16;
            nibbles[2 * at + 1] = byte % 16;
        }
        Some(Key(nibbles))
    }

    /// The key that is this number, if there is one.
    pub fn from_number(nibbles: [u8; NIBBLES]) -> Option<Key> {
        let bytes: Vec<u8> = nibbles.chunks(2).map(|pair| 16 * pair[0] + pair[1]).collect();
        let key = Key::new(bytes[1..].get(..bytes[0].into())?)?;
        (key.0 == nibbles).then_some(key)
    }

    pub fn nibbles(&self) -> &[u8; NIBBLES] {
        &self.0
    }

    pub fn bytes(&self) -> Vec<u8> {
        let length = 16 * self.0[0] + self.0[1];
        let bytes = self.0[2..].chunks(2).map(|pair| 16 * pair[0] + pair[1]);
        bytes.take(length.into()).collect()
    }
}

/// A block of tier v: the 16^v numbers that begin with these 66 - v nibbles.
#[derive(Clone, Debug, PartialEq, Eq, PartialOrd, Ord)]
pub struct Block(Vec<u8>);

impl Block {
    /// The block of tier 66: every number.
    pub fn whole() -> Block {
        Block(Vec::new())
    }

    /// The block of this tier, 0 to 66, that holds a number.
    pub fn around(tier: usize, nibbles: &[u8; NIBBLES]) -> Block {
        Block(nibbles[..NIBBLES - tier].to_vec())
    }

    /// Those that its numbers begin with.
    pub fn nibbles(&self) -> &[u8] {
        &self.0
    }

    pub fn tier(&self) -> usize {
        NIBBLES - self.0.len()
    }

    /// The block of the next lower tier that a nibble leads to.
    pub fn child(&self, nibble: u8) -> Block {
        Block([&self.0[..], &[nibble]].concat())
    }

    pub fn holds(&self, key: &Key) -> bool {
        key.0.starts_with(&self.0)
    }

    /// The first number of the block.
    pub fn first(&self) -> [u8; NIBBLES] {
        let mut nibbles = [0; NIBBLES];
        nibbles[..self.0.len()].copy_from_slice(&self.0);
        nibbles
    }
}

/// The list in which the key has this object, whether it had another or none.
pub fn insert(list: &List, key: Key, object: u64) -> List {
    let mut list = list.clone();
    list.insert(key, object);
    list
}

/// The list without the key.
pub fn delete(list: &List, key: Key) -> List {
    let mut list = list.clone();
    list.remove(&key);
    list
}
