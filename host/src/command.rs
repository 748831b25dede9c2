//! A command and its record in a batch.

use crate::word::Word;
use std::fmt;

/// The highest order of an entry.
pub const MOST_ORDER: u8 = 63;

/// The filter of a find that takes any entry; 0, 1 and 2 take entries with that mark.
pub const FIND_ANY: u8 = 3;

/// The kinds of command, by the tag of their record.
#[derive(Clone, Copy, Debug, PartialEq, Eq, Hash)]
#[repr(u8)]
pub enum Tag {
    /// Stores an entry.
    Store = 1,
    /// Gives the entry over an index.
    Load = 2,
    /// Takes the entry over an index out.
    Erase = 3,
    /// Sets a mark of the entry over an index.
    Mark = 4,
    /// Clears a mark of the entry over an index.
    Unmark = 5,
    /// Gives the first entry in a range.
    Find = 6,
    /// Holds an index before there is an entry for it.
    Reserve = 7,
}

impl Tag {
    /// All kinds, in the order of their tags.
    pub const ALL: [Tag; 7] =
        [Tag::Store, Tag::Load, Tag::Erase, Tag::Mark, Tag::Unmark, Tag::Find, Tag::Reserve];

    /// The kind of this tag, if there is one.
    #[must_use]
    pub fn from_byte(byte: u8) -> Option<Tag> {
        Tag::ALL.get(usize::from(byte.checked_sub(1)?)).copied()
    }

    /// Its tag, 1 to 7.
    #[must_use]
    pub fn byte(self) -> u8 {
        self as u8
    }

    /// The bytes of the fields of this command.
    #[must_use]
    pub fn field_bytes(self) -> u8 {
        match self {
            Tag::Store => 17,
            Tag::Load | Tag::Erase | Tag::Reserve => 8,
            Tag::Mark | Tag::Unmark => 9,
            Tag::Find => 19,
        }
    }

    /// The bytes of the whole record.
    #[must_use]
    pub fn record_bytes(self) -> usize {
        3 + usize::from(self.field_bytes())
    }
}

impl fmt::Display for Tag {
    fn fmt(&self, f: &mut fmt::Formatter) -> fmt::Result {
        f.write_str(match self {
            Tag::Store => "store",
            Tag::Load => "load",
            Tag::Erase => "erase",
            Tag::Mark => "mark",
            Tag::Unmark => "unmark",
            Tag::Find => "find",
            Tag::Reserve => "reserve",
        })
    }
}

/// A command. Fields of any size can be sent; the library refuses those out of range in the reply
/// (order above 63, an index that is not a multiple of 2^order, a word that is no entry, mark above 2, filter above 3).
#[derive(Clone, Copy, Debug, PartialEq, Eq, Hash)]
pub enum Command {
    /// One entry over the 2^order indices from the index on, with marks 0 and 1 of what it replaces.
    /// Where an entry of that order or more covers them, that entry takes the word and keeps marks 0
    /// and 1: the reply's index and order say what was changed. Mark 2, 'matched', is clear after
    /// every store, also of the same word.
    Store {
        /// The first index of the run, a multiple of 2^order.
        index: u64,
        /// 0 to 63: the run has 2^order indices.
        order: u8,
        /// What is kept there.
        word: Word,
    },
    /// The entry over the index.
    Load {
        /// Any index of its run.
        index: u64,
    },
    /// Takes the whole entry over the index out, or ends its reservation.
    Erase {
        /// Any index of its run.
        index: u64,
    },
    /// Sets a mark of the whole entry over the index.
    Mark {
        /// Any index of its run.
        index: u64,
        /// 0, 1 or 2.
        mark: u8,
    },
    /// Clears a mark of the whole entry over the index.
    Unmark {
        /// Any index of its run.
        index: u64,
        /// 0, 1 or 2.
        mark: u8,
    },
    /// The first entry that meets first to last. [`Pool::find`](crate::Pool::find) goes through all.
    Find {
        /// Where it begins.
        first: u64,
        /// The last index, included.
        last: u64,
        /// A mark that the entry must have, or [`FIND_ANY`].
        filter: u8,
        /// How many steps it may go, at least 1.
        budget: u16,
    },
    /// Holds the index, and the nodes that a store of order 0 there needs, before there is an entry for
    /// it. Loads, finds, marks and unmarks take it for an index without an entry; a store of any order
    /// over it takes its place. The reply gives the index:
    /// [`Entry::is_reserved`](crate::Entry::is_reserved).
    Reserve {
        /// An index that no entry covers and that is not reserved yet.
        index: u64,
    },
}

impl Command {
    /// Its kind.
    #[must_use]
    pub fn tag(self) -> Tag {
        match self {
            Command::Store { .. } => Tag::Store,
            Command::Load { .. } => Tag::Load,
            Command::Erase { .. } => Tag::Erase,
            Command::Mark { .. } => Tag::Mark,
            Command::Unmark { .. } => Tag::Unmark,
            Command::Find { .. } => Tag::Find,
            Command::Reserve { .. } => Tag::Reserve,
        }
    }

    /// Writes the record at the end of a batch.
    pub fn write(self, batch: &mut Vec<u8>) {
        batch.extend([self.tag().byte(), 0, self.tag().field_bytes()]);
        match self {
            Command::Store { index, order, word } => {
                batch.extend(index.to_be_bytes());
                batch.push(order);
                batch.extend(word.0.to_be_bytes());
            }
            Command::Load { index } | Command::Erase { index } | Command::Reserve { index } => {
                batch.extend(index.to_be_bytes());
            }
            Command::Mark { index, mark } | Command::Unmark { index, mark } => {
                batch.extend(index.to_be_bytes());
                batch.push(mark);
            }
            Command::Find { first, last, filter, budget } => {
                batch.extend(first.to_be_bytes());
                batch.extend(last.to_be_bytes());
                batch.push(filter);
                batch.extend(budget.to_be_bytes());
            }
        }
    }

    /// The command whose record stands at the start of the bytes; none if it is cut, of unknown
    /// tag or of wrong length.
    #[must_use]
    pub fn read(bytes: &[u8]) -> Option<Command> {
        let tag = Tag::from_byte(*bytes.first()?)?;
        if bytes.get(1..3)? != [0, tag.field_bytes()] {
            return None;
        }
        let fields = bytes.get(3..tag.record_bytes())?;
        let index = number(fields, 0)?;
        Some(match tag {
            Tag::Store => {
                Command::Store { index, order: *fields.get(8)?, word: Word(number(fields, 9)?) }
            }
            Tag::Load => Command::Load { index },
            Tag::Erase => Command::Erase { index },
            Tag::Mark => Command::Mark { index, mark: *fields.get(8)? },
            Tag::Unmark => Command::Unmark { index, mark: *fields.get(8)? },
            Tag::Find => Command::Find {
                first: index,
                last: number(fields, 8)?,
                filter: *fields.get(16)?,
                budget: short(fields, 17)?,
            },
            Tag::Reserve => Command::Reserve { index },
        })
    }
}

/// The big-endian number of 8 bytes at this place.
pub(crate) fn number(bytes: &[u8], place: usize) -> Option<u64> {
    let part = bytes.get(place..)?.first_chunk::<8>()?;
    Some(u64::from_be_bytes(*part))
}

/// The big-endian number of 2 bytes at this place.
pub(crate) fn short(bytes: &[u8], place: usize) -> Option<u16> {
    let part = bytes.get(place..)?.first_chunk::<2>()?;
    Some(u16::from_be_bytes(*part))
}

/// An index as text; the last one is `max`.
pub(crate) struct Index(pub u64);

impl fmt::Display for Index {
    fn fmt(&self, f: &mut fmt::Formatter) -> fmt::Result {
        match self.0 {
            u64::MAX => f.write_str("max"),
            index => write!(f, "{index}"),
        }
    }
}

/// As xabatch reads it: `store 64 order 0 value 2`.
impl fmt::Display for Command {
    fn fmt(&self, f: &mut fmt::Formatter) -> fmt::Result {
        let tag = self.tag();
        match *self {
            Command::Store { index, order, word } => {
                write!(f, "{tag} {} order {order} {word}", Index(index))
            }
            Command::Load { index } | Command::Erase { index } | Command::Reserve { index } => {
                write!(f, "{tag} {}", Index(index))
            }
            Command::Mark { index, mark } | Command::Unmark { index, mark } => {
                write!(f, "{tag} {} mark {mark}", Index(index))
            }
            Command::Find { first, last, filter, budget } => {
                write!(f, "{tag} {}..{} ", Index(first), Index(last))?;
                match filter {
                    FIND_ANY => write!(f, "any budget {budget}"),
                    mark => write!(f, "mark {mark} budget {budget}"),
                }
            }
        }
    }
}
