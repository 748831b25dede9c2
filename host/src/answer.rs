//! Every answer by name, and the refusals of a call.

use crate::layout::{ANCHOR_WORDS, BLOCK_WORDS, NAMES_ANCHOR_WORDS, NODE_WORDS};
use crate::names::MOST_BLOCKS;
use crate::plain::MOST_ENTRIES;
use crate::pool::MOST_NODES;
use crate::raw::RawResult;
use crate::reply::Replies;
use std::fmt;

/// The answer of a call (0 to 4; of a list also 8, of preparing the command's own) or in a reply (0 and 5 to 15). 16 is
/// [`NameError::BadKey`](crate::NameError::BadKey), 17 [`Refusal::BadScript`], and 18 to 20 are a
/// [`GateRefusal`](crate::GateRefusal). As an error it is what a command was
/// answered in place of `Done`: see [`Reply::done`](crate::Reply::done).
#[derive(Clone, Copy, Debug, PartialEq, Eq, Hash, PartialOrd, Ord)]
#[repr(u8)]
#[must_use]
pub enum Answer {
    /// It is done.
    Done = 0,
    /// Call: no pool of 1 to [`MOST_NODES`] nodes has so many words ([`pool_words`](crate::pool_words)). Of the plain
    /// engine: its slices are not of one length, or have more than [`MOST_ENTRIES`] elements.
    PoolLength = 1,
    /// Call: the words are not those of a pool. Of the plain engine: the slices do not hold a list and then zeros.
    NotWellFormed = 2,
    /// Call: the batch is too long, or has a record that is cut off, or whose tag or length is none. Preparing: the bytes
    /// are not one record of a command that changes the pool.
    BadBatch = 3,
    /// Call: under 24 bytes of reply space a command, 21 bytes an entry of a list, or the words of a script.
    ReplySpace = 4,
    /// Store: the order is above 63.
    BadOrder = 5,
    /// Store: the word is 0 or ends in binary 10.
    BadEntry = 6,
    /// Mark, unmark: the mark is above 2. Find: the filter is above 3.
    BadMark = 7,
    /// Find, and the call that lists: first is above last.
    FirstAboveLast = 8,
    /// Find: the budget is 0.
    NoBudget = 9,
    /// Load, mark, unmark: no entry covers the index. Erase: nor is it reserved.
    Absent = 10,
    /// Store, reserve: it needs more nodes than are free; nothing is changed. Of the plain engine: the new list would
    /// have more entries than room.
    TooFewNodes = 11,
    /// Find: nothing more to find.
    Ended = 12,
    /// Find: the budget is used up.
    Paused = 13,
    /// Store: the index is not a multiple of 2^order. Tested after `BadOrder` and before `BadEntry`.
    NotAligned = 14,
    /// Reserve: an entry covers the index, or it is reserved already. Tested before `TooFewNodes`.
    Covered = 15,
}

impl Answer {
    /// All answers; answer k is at place k.
    pub const ALL: [Answer; 16] = [
        Answer::Done,
        Answer::PoolLength,
        Answer::NotWellFormed,
        Answer::BadBatch,
        Answer::ReplySpace,
        Answer::BadOrder,
        Answer::BadEntry,
        Answer::BadMark,
        Answer::FirstAboveLast,
        Answer::NoBudget,
        Answer::Absent,
        Answer::TooFewNodes,
        Answer::Ended,
        Answer::Paused,
        Answer::NotAligned,
        Answer::Covered,
    ];

    /// The answer of this number, if there is one.
    pub fn from_number(number: u64) -> Option<Answer> {
        Answer::ALL.get(usize::try_from(number).ok()?).copied()
    }

    /// Its number, 0 to 15.
    #[must_use]
    pub fn number(self) -> u8 {
        self as u8
    }

    /// None: the text has numbers in it.
    fn text(self) -> Option<&'static str> {
        Some(match self {
            Answer::PoolLength => return None,
            Answer::Done => "done",
            Answer::NotWellFormed => "pool is not well-formed",
            Answer::BadBatch => {
                "batch too long, or a record is cut, of unknown tag or wrong length"
            }
            Answer::ReplySpace => {
                "space under 24 bytes a command, 21 an entry of a list, or a script's words"
            }
            Answer::BadOrder => "order above 63",
            Answer::BadEntry => "entry is 0 or ends in binary 10",
            Answer::BadMark => "mark above 2 or filter above 3",
            Answer::FirstAboveLast => "first above last",
            Answer::NoBudget => "budget 0",
            Answer::Absent => "no entry covers the index",
            Answer::TooFewNodes => "too few free nodes",
            Answer::Ended => "ended",
            Answer::Paused => "paused",
            Answer::NotAligned => "index is not a multiple of 2^order",
            Answer::Covered => "index is covered by an entry or reserved",
        })
    }
}

impl fmt::Display for Answer {
    fn fmt(&self, f: &mut fmt::Formatter) -> fmt::Result {
        match self.text() {
            Some(text) => f.write_str(text),
            None => {
                let words = format_args!("{ANCHOR_WORDS} + {NODE_WORDS} N words");
                write!(f, "pool length is not {words}, N from 1 to {MOST_NODES}")
            }
        }
    }
}

impl std::error::Error for Answer {}

/// A call that was refused: nothing ran, the pool and what was lent for the answer are as they were.
#[derive(Clone, Copy, Debug, PartialEq, Eq)]
pub enum Refusal {
    /// No pool of 1 to [`MOST_NODES`] nodes has so many words.
    PoolLength,
    /// The words are not those of a pool: never initialised, or damaged.
    NotWellFormed,
    /// The slices of a plain list are not of one length, or have more than [`MOST_ENTRIES`] elements. Of saved bytes:
    /// their head or their length is none of a plain list.
    SliceLength,
    /// The slices do not hold a list and then zeros: never initialised, or damaged.
    NotAList,
    /// No pool of names of 1 to [`MOST_BLOCKS`] blocks has so many words.
    NamesLength,
    /// The words are not those of a pool of names: never cleared, or damaged.
    NotNames,
    /// The first record that is cut, of unknown tag or of wrong length begins at this place;
    /// [`MOST_BATCH_BYTES`](crate::MOST_BATCH_BYTES) if the batch is too long.
    BadBatch {
        /// The place of its first byte, from 0.
        place: u64,
    },
    /// So many commands need 24 bytes each for their replies.
    ReplySpace {
        /// The commands of the batch.
        commands: u64,
    },
    /// A list: first is above last.
    FirstAboveLast,
    /// A list: so many entries need 21 bytes each.
    ListSpace {
        /// The entries that meet the range.
        entries: u64,
    },
    /// Preparing, answer 3: what it was given is not exactly one record of a command that changes the pool: store, erase,
    /// mark, unmark or reserve.
    NotAChange,
    /// Preparing: the script has so many words.
    ScriptSpace {
        /// Two for each word of the pool that changes.
        words: u64,
    },
    /// A script, answer 17: a place is outside the pool, or its last pair is half.
    BadScript,
    /// The library gave what it never gives. Is it the right library?
    Unexpected {
        /// What it gave as answer.
        answer: u64,
        /// What it gave as number.
        number: u64,
    },
}

impl Refusal {
    /// The number that came with answer 0, or the refusal.
    pub(crate) fn unless_done(result: RawResult) -> Result<u64, Refusal> {
        let RawResult { answer, number } = result;
        match Answer::from_number(answer) {
            Some(Answer::Done) => Ok(number),
            Some(Answer::PoolLength) => Err(Refusal::PoolLength),
            Some(Answer::NotWellFormed) => Err(Refusal::NotWellFormed),
            Some(Answer::BadBatch) => Err(Refusal::BadBatch { place: number }),
            Some(Answer::ReplySpace) => Err(Refusal::ReplySpace { commands: number }),
            _ => Err(Refusal::Unexpected { answer, number }),
        }
    }

    /// The same for the plain engine: what answers 1 and 2 say is of its slices.
    pub(crate) fn unless_plain_done(result: RawResult) -> Result<u64, Refusal> {
        Refusal::unless_done(result).map_err(|refusal| match refusal {
            Refusal::PoolLength => Refusal::SliceLength,
            Refusal::NotWellFormed => Refusal::NotAList,
            other => other,
        })
    }

    /// The same for a list: the entries, or the refusal. It has no batch.
    pub(crate) fn unless_listed(result: RawResult) -> Result<u64, Refusal> {
        let RawResult { answer, number } = result;
        match Answer::from_number(answer) {
            Some(Answer::ReplySpace) => Err(Refusal::ListSpace { entries: number }),
            Some(Answer::FirstAboveLast) => Err(Refusal::FirstAboveLast),
            Some(Answer::BadBatch) => Err(Refusal::Unexpected { answer, number }),
            _ => Refusal::unless_done(result),
        }
    }

    /// The same for applying a script, which looks at the pool's length alone and gives no number.
    pub(crate) fn unless_applied(result: RawResult) -> Result<(), Refusal> {
        match result {
            RawResult { answer: 0, number: 0 } => Ok(()),
            RawResult { answer: 1, number: 0 } => Err(Refusal::PoolLength),
            RawResult { answer: 17, number: 0 } => Err(Refusal::BadScript),
            RawResult { answer, number } => Err(Refusal::Unexpected { answer, number }),
        }
    }

    /// The same for a pool of names that is cleared or checked, which give no number.
    pub(crate) fn unless_names_done(result: RawResult) -> Result<(), Refusal> {
        match result {
            RawResult { answer: 0, number: 0 } => Ok(()),
            RawResult { answer: 1, number: 0 } => Err(Refusal::NamesLength),
            RawResult { answer: 2, number: 0 } => Err(Refusal::NotNames),
            RawResult { answer, number } => Err(Refusal::Unexpected { answer, number }),
        }
    }

    /// The answer by name, where it is one of [`Answer`]; 17 is not.
    pub fn answer(self) -> Option<Answer> {
        match self {
            Refusal::PoolLength | Refusal::SliceLength | Refusal::NamesLength => {
                Some(Answer::PoolLength)
            }
            Refusal::NotWellFormed | Refusal::NotAList | Refusal::NotNames => {
                Some(Answer::NotWellFormed)
            }
            Refusal::BadBatch { .. } | Refusal::NotAChange => Some(Answer::BadBatch),
            Refusal::ReplySpace { .. }
            | Refusal::ListSpace { .. }
            | Refusal::ScriptSpace { .. } => Some(Answer::ReplySpace),
            Refusal::FirstAboveLast => Some(Answer::FirstAboveLast),
            Refusal::BadScript => None,
            Refusal::Unexpected { answer, .. } => Answer::from_number(answer),
        }
    }
}

impl fmt::Display for Refusal {
    fn fmt(&self, f: &mut fmt::Formatter) -> fmt::Result {
        match self {
            Refusal::PoolLength => Answer::PoolLength.fmt(f),
            Refusal::NotWellFormed => Answer::NotWellFormed.fmt(f),
            Refusal::SliceLength => {
                write!(f, "the four slices are not of one length, or above {MOST_ENTRIES} entries")
            }
            Refusal::NotAList => f.write_str("the slices do not hold a list and then zeros"),
            Refusal::NamesLength => {
                let words = format_args!("{NAMES_ANCHOR_WORDS} + {BLOCK_WORDS} N words");
                write!(f, "pool of names: length is not {words}, N from 1 to {MOST_BLOCKS}")
            }
            Refusal::NotNames => f.write_str("pool of names is not well-formed"),
            Refusal::BadBatch { place } => write!(f, "{} (at byte {place})", Answer::BadBatch),
            Refusal::ReplySpace { commands } => {
                write!(f, "{} ({commands} commands)", Answer::ReplySpace)
            }
            Refusal::FirstAboveLast => Answer::FirstAboveLast.fmt(f),
            Refusal::ListSpace { entries } => {
                write!(f, "{} ({entries} entries)", Answer::ReplySpace)
            }
            Refusal::NotAChange => f.write_str("not one record of a command that changes the pool"),
            Refusal::ScriptSpace { words } => {
                write!(f, "{} ({words} words)", Answer::ReplySpace)
            }
            Refusal::BadScript => {
                f.write_str("script has a place outside the pool, or half a pair")
            }
            Refusal::Unexpected { answer, number } => {
                write!(f, "unexpected answer {answer}, number {number}")
            }
        }
    }
}

impl std::error::Error for Refusal {}

/// A batch of several was refused. Those before it ran: what they did stands, and this is how they were
/// answered.
#[derive(Clone, Debug, PartialEq, Eq)]
pub struct RefusedBatch {
    /// Why.
    pub refusal: Refusal,
    /// The number of the batch that was refused, from 0: so many ran before it.
    pub batch: usize,
    /// The replies of those that ran.
    pub replies: Replies,
}

impl fmt::Display for RefusedBatch {
    fn fmt(&self, f: &mut fmt::Formatter) -> fmt::Result {
        let RefusedBatch { refusal, batch, replies } = self;
        match replies.len() {
            0 => write!(f, "{refusal}"),
            ran => write!(f, "batch {batch}: {refusal}; the {ran} commands before it ran"),
        }
    }
}

impl std::error::Error for RefusedBatch {}

impl From<RefusedBatch> for Refusal {
    fn from(refused: RefusedBatch) -> Refusal {
        refused.refusal
    }
}

impl From<RefusedBatch> for Error {
    fn from(refused: RefusedBatch) -> Error {
        Error::Refused(refused.refusal)
    }
}

/// Why work of several commands stopped: a call was refused, or a command was answered with
/// something that ends the work.
#[derive(Clone, Copy, Debug, PartialEq, Eq)]
pub enum Error {
    /// A call was refused; what earlier calls did stands.
    Refused(Refusal),
    /// A command was answered with this.
    Answered(Answer),
}

impl fmt::Display for Error {
    fn fmt(&self, f: &mut fmt::Formatter) -> fmt::Result {
        match self {
            Error::Refused(refusal) => refusal.fmt(f),
            Error::Answered(answer) => answer.fmt(f),
        }
    }
}

impl std::error::Error for Error {}

impl From<Refusal> for Error {
    fn from(refusal: Refusal) -> Error {
        Error::Refused(refusal)
    }
}

impl From<Answer> for Error {
    fn from(answer: Answer) -> Error {
        Error::Answered(answer)
    }
}
