//! A pool of names: objects by keys of 1 to 32 bytes, in words that it owns or borrows.

use crate::answer::Refusal;
use crate::layout::{
    block_place, BASE_FIELD, BASE_WORDS, BLOCK_SLOTS, BLOCK_SLOT_FIELD, BLOCK_WORDS,
    NAMES_ANCHOR_WORDS, ROOT_TIER, SKIP_FIELD, TIER_FIELD, VALUE_FIELD,
};
use crate::pool::{bytes_of_words, words_of_bytes};
use crate::raw::{self, RawResult};
use crate::word::Word;
use std::error::Error;
use std::fmt;

/// A pool of names has at most so many blocks.
pub const MOST_BLOCKS: usize = 16_384;

/// A key has at most so many bytes, and one at least.
pub const MOST_KEY_BYTES: usize = 32;

/// The bytes of a key's number: its length, its bytes, and then zeros.
pub const KEY_NUMBER_BYTES: usize = 1 + MOST_KEY_BYTES;

/// The words of a pool of names of this many blocks; none unless they are 1 to [`MOST_BLOCKS`].
#[must_use]
pub fn names_words(blocks: usize) -> Option<usize> {
    (1..=MOST_BLOCKS).contains(&blocks).then(|| block_place(blocks))
}

/// The blocks of a pool of names of this many words; none if no such pool has so many.
#[must_use]
pub fn block_count(words: usize) -> Option<usize> {
    let blocks = words.checked_sub(NAMES_ANCHOR_WORDS)? / BLOCK_WORDS;
    (names_words(blocks) == Some(words)).then_some(blocks)
}

/// A key: 1 to [`MOST_KEY_BYTES`] bytes of any value. Keys are ordered as a pool has them: shorter ones first, those of
/// one length by their bytes.
#[derive(Clone, Copy, Debug, PartialEq, Eq, Hash, PartialOrd, Ord)]
pub struct Key {
    number: [u8; KEY_NUMBER_BYTES],
}

impl Key {
    /// The key of these bytes; an error if there are none, or too many.
    pub fn new(bytes: &[u8]) -> Result<Key, NameError> {
        let length = u8::try_from(bytes.len()).unwrap_or_default();
        let mut number = [0; KEY_NUMBER_BYTES];
        match number.get_mut(1..=bytes.len()) {
            Some(place) if length > 0 => place.copy_from_slice(bytes),
            _ => return Err(NameError::BadKey { bytes: bytes.len() }),
        }
        number[0] = length;
        Ok(Key { number })
    }

    /// The key of this number; none if it is no key's.
    fn from_number(number: [u8; KEY_NUMBER_BYTES]) -> Option<Key> {
        let key = Key::new(number.get(1..=number[0].into())?).ok()?;
        (key.number == number).then_some(key)
    }

    /// Its bytes.
    #[must_use]
    pub fn bytes(&self) -> &[u8] {
        &self.number[1..=self.number[0].into()]
    }

    /// Its number, highest byte first: the length, the bytes, zeros.
    #[must_use]
    pub fn number(&self) -> [u8; KEY_NUMBER_BYTES] {
        self.number
    }
}

/// Printable ASCII as it is but for quotes and `\`, all else escaped, so that no two keys read the same.
impl fmt::Display for Key {
    fn fmt(&self, f: &mut fmt::Formatter) -> fmt::Result {
        self.bytes().escape_ascii().fmt(f)
    }
}

/// Why a look-up gave no object. None of these is a match.
#[derive(Clone, Copy, Debug, PartialEq, Eq)]
pub enum NameError {
    /// The pool was refused, and no key of it can be relied on.
    Refused(Refusal),
    /// Answer 16: the key has no byte, or more than [`MOST_KEY_BYTES`].
    BadKey {
        /// How many it has.
        bytes: usize,
    },
    /// Answer 10: the pool is good and does not have this key.
    Absent {
        /// The key.
        key: Key,
    },
}

impl fmt::Display for NameError {
    fn fmt(&self, f: &mut fmt::Formatter) -> fmt::Result {
        match self {
            NameError::Refused(refusal) => refusal.fmt(f),
            NameError::BadKey { bytes } => {
                write!(f, "a key has 1 to {MOST_KEY_BYTES} bytes, not {bytes}")
            }
            NameError::Absent { key } => write!(f, "no such key: {key}"),
        }
    }
}

impl Error for NameError {}

impl From<Refusal> for NameError {
    fn from(refusal: Refusal) -> NameError {
        NameError::Refused(refusal)
    }
}

/// What a block of a pool of names shows by itself. Nothing says that it is reached from the root, or fits what is around
/// it: that is what [`Names::check`] is for.
#[derive(Clone, Debug, PartialEq, Eq)]
pub enum Block {
    /// All zeros.
    Free,
    /// A key and its object.
    Leaf {
        /// The key.
        key: Key,
        /// Its object.
        object: Word,
    },
    /// A node.
    Node {
        /// From 1 to 66: so many nibbles, the last ones, differ among the numbers of its block.
        tier: usize,
        /// How many keys its block has, as it says.
        keys: u64,
        /// The first number of its block, highest byte first.
        base: [u8; KEY_NUMBER_BYTES],
        /// The number of the block that each slot leads to.
        slots: Box<[Option<usize>; BLOCK_SLOTS]>,
    },
    /// A shortcut, in place of a run of nodes.
    Shortcut {
        /// The tier of the node that it leads to.
        tier: usize,
        /// How many nodes it stands for, 1 at least; its upper end has tier `tier + skip`, 66 at most.
        skip: usize,
        /// The base of the node that it leads to.
        base: [u8; KEY_NUMBER_BYTES],
        /// The number of that node's block.
        to: usize,
    },
}

impl Block {
    /// What these words show, among so many blocks; none if they are those of no block.
    fn read(words: &[u64], blocks: usize) -> Option<Block> {
        if words.len() != BLOCK_WORDS {
            return None;
        }
        if words.iter().all(|word| *word == 0) {
            return Some(Block::Free);
        }
        let tier = usize::try_from(words[TIER_FIELD].checked_sub(1)?).ok()?;
        let skip = usize::try_from(words[SKIP_FIELD]).ok()?;
        let value = words[VALUE_FIELD];
        let base = base_of(&words[BASE_FIELD..BLOCK_SLOT_FIELD])?;
        let slots = slots_of(&words[BLOCK_SLOT_FIELD..], blocks)?;
        let filled = slots.iter().flatten().count();
        match (tier, skip) {
            (0, 0) if filled == 0 => {
                Some(Block::Leaf { key: Key::from_number(base)?, object: Word(value) })
            }
            (1..=ROOT_TIER, 0) => {
                Some(Block::Node { tier, keys: value, base, slots: Box::new(slots) })
            }
            (1..=ROOT_TIER, 1..=ROOT_TIER)
                if tier + skip <= ROOT_TIER && value == 0 && filled == 1 =>
            {
                slots[0].map(|to| Block::Shortcut { tier, skip, base, to })
            }
            _ => None,
        }
    }
}

/// A number from its words, the lowest first; none if it has more than 66 nibbles.
fn base_of(words: &[u64]) -> Option<[u8; KEY_NUMBER_BYTES]> {
    let mut number = [0; KEY_NUMBER_BYTES];
    let (top, rest) = words.get(..BASE_WORDS)?.split_last()?;
    number[0] = u8::try_from(*top).ok()?;
    for (place, word) in number[1..].chunks_exact_mut(8).zip(rest.iter().rev()) {
        place.copy_from_slice(&word.to_be_bytes());
    }
    Some(number)
}

/// Where each slot leads; none if one leads out of the pool.
fn slots_of(words: &[u64], blocks: usize) -> Option<[Option<usize>; BLOCK_SLOTS]> {
    let mut slots = [None; BLOCK_SLOTS];
    for (slot, word) in slots.iter_mut().zip(words).filter(|(_, word)| **word != 0) {
        *slot = Some(link(*word, blocks)?);
    }
    Some(slots)
}

/// The block that a slot or the root leads to by a word other than 0, if there is one.
fn link(word: u64, blocks: usize) -> Option<usize> {
    let number = usize::try_from(word.checked_sub(1)?).ok()?;
    (number < blocks).then_some(number)
}

#[derive(Debug)]
enum Words<'a> {
    Owned(Vec<u64>),
    Borrowed(&'a mut [u64]),
}

/// The words of a pool of names. Whatever words it is given, the library checks them with each call but
/// [`Names::clear`].
///
/// Proved of the library's calls: the check says `Ok` exactly if some list of keys and objects prescribes the words, and a
/// look-up gives the object that this list has for the key. Not proved, as nothing in this wrapper is: that it lends the right
/// slices and reads the blocks right ([`Names::blocks`], [`Names::keys`]).
///
/// ```
/// use xapool_host::{Key, NameError, Names};
///
/// let names = Names::new(40)?;
/// names.check()?;
/// let key = Key::new(b"region-7")?;
/// assert_eq!(names.lookup(key.bytes()), Err(NameError::Absent { key }));
/// assert_eq!(names.lookup(b""), Err(NameError::BadKey { bytes: 0 }));
/// # Ok::<(), Box<dyn std::error::Error>>(())
/// ```
#[derive(Debug)]
pub struct Names<'a> {
    words: Words<'a>,
}

/// A copy that owns its words, whether or not the original does.
impl Clone for Names<'_> {
    fn clone(&self) -> Self {
        Names { words: Words::Owned(self.words().to_vec()) }
    }
}

impl Names<'static> {
    /// A pool without keys of 1 to [`MOST_BLOCKS`] blocks that owns its words.
    pub fn new(blocks: usize) -> Result<Names<'static>, Refusal> {
        let size = names_words(blocks).ok_or(Refusal::NamesLength)?;
        let mut names = Names::from_words(vec![0; size]);
        names.clear()?;
        Ok(names)
    }

    /// Words that were a pool of names before. Nothing is checked here.
    #[must_use]
    pub fn from_words(words: Vec<u64>) -> Names<'static> {
        Names { words: Words::Owned(words) }
    }

    /// The pool that [`Names::to_bytes`] gave, checked. The check knows the structure, not what was entered: keep a digest
    /// of the bytes ([`Crc32c::of`](crate::Crc32c::of)) elsewhere.
    pub fn from_bytes(bytes: &[u8]) -> Result<Names<'static>, Refusal> {
        let names = Names::from_words(words_of_bytes(bytes).ok_or(Refusal::NamesLength)?);
        names.check()?;
        Ok(names)
    }
}

impl<'a> Names<'a> {
    /// Borrowed words, as they are: call [`Names::clear`] if they are no pool of names yet.
    pub fn over(words: &'a mut [u64]) -> Names<'a> {
        Names { words: Words::Borrowed(words) }
    }

    /// Makes it a pool without keys, whatever stood there.
    pub fn clear(&mut self) -> Result<(), Refusal> {
        Refusal::unless_names_done(raw::names_clear(self.words_mut()))
    }

    /// Whether the words are well-formed; a refusal says why they are not.
    pub fn check(&self) -> Result<(), Refusal> {
        Refusal::unless_names_done(raw::names_check(self.words()))
    }

    /// The object of a key, once the whole pool is checked. A key that is not there is an error: absence is never a match.
    pub fn lookup(&self, key: &[u8]) -> Result<Word, NameError> {
        let RawResult { answer, number } = raw::names_lookup(self.words(), key);
        Err(match (answer, number) {
            (0, object) if Word(object).is_entry() => return Ok(Word(object)),
            (1, 0) => Refusal::NamesLength.into(),
            (2, 0) => Refusal::NotNames.into(),
            (10, 0) => NameError::Absent { key: Key::new(key)? },
            (16, 0) => NameError::BadKey { bytes: key.len() },
            _ => Refusal::Unexpected { answer, number }.into(),
        })
    }

    /// Every key with its object, in key order, read from the blocks once they are checked.
    pub fn keys(&self) -> Result<Vec<(Key, Word)>, Refusal> {
        self.check()?;
        let leaf = |block| match block {
            Some(Block::Leaf { key, object }) => Some((key, object)),
            _ => None,
        };
        let mut keys: Vec<(Key, Word)> = self.blocks().filter_map(leaf).collect();
        keys.sort_unstable_by_key(|(key, _)| *key);
        Ok(keys)
    }

    /// What each block shows by itself, by number; none where its words are those of no block, or lead out of the pool.
    /// Nothing is checked: it is for drawing also what is damaged, and no evidence of a key.
    pub fn blocks(&self) -> impl ExactSizeIterator<Item = Option<Block>> + '_ {
        let words = self.words().get(NAMES_ANCHOR_WORDS..).unwrap_or_default();
        let whole = words.len() / BLOCK_WORDS;
        words.chunks(BLOCK_WORDS).map(move |block| Block::read(block, whole))
    }

    /// The number of the root's block, unchecked; none without keys, and where it would be out of the pool.
    #[must_use]
    pub fn root(&self) -> Option<usize> {
        link(*self.words().get(1)?, block_count(self.words().len())?)
    }

    /// How many blocks it has; none if no pool of names has so many words.
    #[must_use]
    pub fn block_count(&self) -> Option<usize> {
        block_count(self.words().len())
    }

    /// How many of its blocks are in use: a free one is all zeros.
    #[must_use]
    pub fn blocks_in_use(&self) -> usize {
        self.blocks().filter(|block| *block != Some(Block::Free)).count()
    }

    /// The pool as bytes, to be saved: its words in order, each lowest byte first.
    #[must_use]
    pub fn to_bytes(&self) -> Vec<u8> {
        bytes_of_words(self.words())
    }

    /// Its words: two, then those of each block ([`layout`](crate::layout)).
    #[must_use]
    pub fn words(&self) -> &[u64] {
        match &self.words {
            Words::Owned(words) => words,
            Words::Borrowed(words) => words,
        }
    }

    /// The words, to change them at will: a damaged pool is refused by the next call.
    pub fn words_mut(&mut self) -> &mut [u64] {
        match &mut self.words {
            Words::Owned(words) => words,
            Words::Borrowed(words) => words,
        }
    }

    /// The words, copied if they are borrowed.
    #[must_use]
    pub fn into_words(self) -> Vec<u64> {
        match self.words {
            Words::Owned(words) => words,
            Words::Borrowed(words) => words.to_vec(),
        }
    }
}
