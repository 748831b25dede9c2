//! The word of an entry: a value, a handle, or neither.

use std::fmt;

/// A 64-bit word as a store takes it. Any word can be sent; one that is neither a value nor a
/// handle is answered with `BadEntry`.
#[derive(Clone, Copy, Debug, Default, PartialEq, Eq, Hash, PartialOrd, Ord)]
pub struct Word(pub u64);

/// What a word stands for.
#[derive(Clone, Copy, Debug, PartialEq, Eq)]
pub enum Kind {
    /// Value v is the word 2v + 1.
    Value(u64),
    /// A multiple of 4 above 0, never followed by the library.
    Handle(u64),
    /// 0, or a word that ends in binary 10.
    NotAnEntry,
}

/// A value of 2^63 or more, which no word holds.
#[derive(Clone, Copy, Debug, PartialEq, Eq)]
pub struct TooLarge(pub u64);

impl fmt::Display for TooLarge {
    fn fmt(&self, f: &mut fmt::Formatter) -> fmt::Result {
        write!(f, "value {} is above 2^63 - 1", self.0)
    }
}

impl std::error::Error for TooLarge {}

/// A number that is 0 or not a multiple of 4.
#[derive(Clone, Copy, Debug, PartialEq, Eq)]
pub struct NotAHandle(pub u64);

impl fmt::Display for NotAHandle {
    fn fmt(&self, f: &mut fmt::Formatter) -> fmt::Result {
        write!(f, "handle {:#x} is not a multiple of 4 above 0", self.0)
    }
}

impl std::error::Error for NotAHandle {}

impl Word {
    /// The word of a value below 2^63.
    pub fn value(value: u64) -> Result<Word, TooLarge> {
        value.checked_mul(2).map(|twice| Word(twice + 1)).ok_or(TooLarge(value))
    }

    /// The word of a handle: a multiple of 4 above 0, as an address of something aligned is.
    pub fn handle(handle: u64) -> Result<Word, NotAHandle> {
        match Word(handle).kind() {
            Kind::Handle(_) => Ok(Word(handle)),
            _ => Err(NotAHandle(handle)),
        }
    }

    /// What it stands for.
    #[must_use]
    pub fn kind(self) -> Kind {
        match self.0 % 4 {
            1 | 3 => Kind::Value(self.0 / 2),
            0 if self.0 > 0 => Kind::Handle(self.0),
            _ => Kind::NotAnEntry,
        }
    }

    /// Whether a store takes it.
    #[must_use]
    pub fn is_entry(self) -> bool {
        self.kind() != Kind::NotAnEntry
    }
}

/// As xabatch writes it: `value 2`, `handle 0x1000`, `word 0x2`.
impl fmt::Display for Word {
    fn fmt(&self, f: &mut fmt::Formatter) -> fmt::Result {
        match self.kind() {
            Kind::Value(value) => write!(f, "value {value}"),
            Kind::Handle(handle) => write!(f, "handle {handle:#x}"),
            Kind::NotAnEntry => write!(f, "word {:#x}", self.0),
        }
    }
}
