//! Replies: 24 bytes for each command; and the record of a refused call.

use crate::answer::Answer;
use crate::command::{number, short, Index as Position, Tag};
use crate::word::Word;
use std::fmt;
use std::ops::Index;

/// Each command's reply has exactly so many bytes.
pub const REPLY_BYTES: usize = 24;
const REPLY_FIELDS: u16 = 21;
const REPLY_TAG: u8 = 128;
const REFUSAL_TAG: u8 = 255;
const REFUSAL_BYTES: usize = 6;
const REFUSAL_FIELDS: u16 = 3;

/// The marks of an entry as their byte: mark m is worth 2^m.
#[derive(Clone, Copy, Debug, Default, PartialEq, Eq)]
pub struct Marks(pub u8);

impl Marks {
    /// Whether this mark is set.
    #[must_use]
    pub fn has(self, mark: u8) -> bool {
        mark < 8 && self.0 >> mark & 1 == 1
    }
}

/// The marks there are, as `0,2`; `-` for none.
impl fmt::Display for Marks {
    fn fmt(&self, f: &mut fmt::Formatter) -> fmt::Result {
        let names: Vec<String> =
            (0..8).filter(|mark| self.has(*mark)).map(|mark| mark.to_string()).collect();
        f.write_str(if names.is_empty() { "-".into() } else { names.join(",") }.as_str())
    }
}

/// An entry, or a reserved index, as a reply or a list gives it: [`Entry::is_reserved`] tells which.
#[derive(Clone, Copy, Debug, PartialEq, Eq)]
pub struct Entry {
    /// The first index that it covers.
    pub base: u64,
    /// It covers 2^order indices.
    pub order: u8,
    /// What is kept there; 0 if the index is reserved.
    pub word: Word,
    /// The marks that it has.
    pub marks: Marks,
}

impl Entry {
    /// A reserved index, as a list and the replies of a reserve, and of an erase of it, give it.
    #[must_use]
    pub fn reserved(index: u64) -> Entry {
        Entry { base: index, order: 0, word: Word(0), marks: Marks(0) }
    }

    /// Whether it is a reserved index and no entry: nothing is kept there yet. No entry has the
    /// word 0. Loads and finds never give one.
    #[must_use]
    pub fn is_reserved(self) -> bool {
        self.word == Word(0)
    }

    /// The last index that it covers.
    #[must_use]
    pub fn last(self) -> u64 {
        let run = 1u64.checked_shl(self.order.into());
        self.base | run.map_or(u64::MAX, |run| run - 1)
    }

    /// The index after its run, where a search goes on; none if the run ends at 2^64 - 1.
    #[must_use]
    pub fn after(self) -> Option<u64> {
        self.last().checked_add(1)
    }

    /// Whether its run has this index.
    #[must_use]
    pub fn covers(self, index: u64) -> bool {
        (self.base..=self.last()).contains(&index)
    }
}

/// As xabatch writes it: `64 order 0 value 2 marks -`, or `64 reserved`.
impl fmt::Display for Entry {
    fn fmt(&self, f: &mut fmt::Formatter) -> fmt::Result {
        let Entry { base, order, word, marks } = self;
        if *self == Entry::reserved(*base) {
            return write!(f, "{} reserved", Position(*base));
        }
        write!(f, "{} order {order} {word} marks {marks}", Position(*base))
    }
}

/// A reply as it stands in its 24 bytes; what a command does not give is zero.
#[derive(Clone, Copy, Debug, PartialEq, Eq)]
pub struct Reply {
    /// The kind of the command.
    pub tag: Tag,
    /// How it was answered.
    pub answer: Answer,
    /// The entry's base; the position of a find that paused.
    pub index: u64,
    /// The entry's order.
    pub order: u8,
    /// The entry's word.
    pub word: Word,
    /// The entry's marks.
    pub marks: Marks,
    /// Load: the nodes over the index. Find: its steps. Else 0.
    pub count: u16,
}

impl Reply {
    /// The reply at the start of the bytes; none if they do not begin with one.
    #[must_use]
    pub fn read(bytes: &[u8]) -> Option<Reply> {
        let tag = Tag::from_byte(bytes.first()?.checked_sub(REPLY_TAG)?)?;
        if short(bytes, 1)? != REPLY_FIELDS {
            return None;
        }
        Some(Reply {
            tag,
            answer: Answer::from_number(u64::from(*bytes.get(3)?))?,
            index: number(bytes, 4)?,
            order: *bytes.get(12)?,
            word: Word(number(bytes, 13)?),
            marks: Marks(*bytes.get(21)?),
            count: short(bytes, 22)?,
        })
    }

    /// The reply as the library writes it.
    #[must_use]
    pub fn bytes(self) -> [u8; REPLY_BYTES] {
        let mut bytes = [0; REPLY_BYTES];
        bytes[0] = self.tag.byte() + REPLY_TAG;
        bytes[1..3].copy_from_slice(&REPLY_FIELDS.to_be_bytes());
        bytes[3] = self.answer.number();
        bytes[4..12].copy_from_slice(&self.index.to_be_bytes());
        bytes[12] = self.order;
        bytes[13..21].copy_from_slice(&self.word.0.to_be_bytes());
        bytes[21] = self.marks.0;
        bytes[22..24].copy_from_slice(&self.count.to_be_bytes());
        bytes
    }

    /// The entry it gives, or the reserved index, where the answer is `Done`.
    #[must_use]
    pub fn entry(self) -> Option<Entry> {
        self.done().ok()
    }

    /// The entry it gives, or the reserved index, or the answer that it has in place of `Done`.
    pub fn done(self) -> Result<Entry, Answer> {
        let Reply { index, order, word, marks, answer, .. } = self;
        match answer {
            Answer::Done => Ok(Entry { base: index, order, word, marks }),
            answer => Err(answer),
        }
    }

    /// Where a find up to `last` goes on: after the run that it found, or where it paused; none if it
    /// ended, or what it found ends at `last` or after. Any other answer, or the reply of another
    /// command, is no end: it is the error. [`Pool::find`](crate::Pool::find) and [`Walk`](crate::Walk) do
    /// this for you. That this is where to go on is the theorem `host_next` of crates/walks.
    ///
    /// ```
    /// # use xapool_host::{Answer, BatchBuilder, Command, Pool};
    /// # let mut pool = Pool::new(1)?;
    /// let mut batch = BatchBuilder::new();
    /// batch.push(Command::Find { first: 0, last: 9, filter: 2, budget: 0 })?;
    /// assert_eq!(pool.run(&batch)?[0].next_first(9), Err(Answer::NoBudget)); // and not 'nothing there'
    /// # Ok::<(), Box<dyn std::error::Error>>(())
    /// ```
    pub fn next_first(self, last: u64) -> Result<Option<u64>, Answer> {
        let next = match (self.tag, self.answer) {
            (Tag::Find, Answer::Done) => self.done()?.after(),
            // Wherever it is: a pause is never an end.
            (Tag::Find, Answer::Paused) => return Ok(Some(self.index)),
            (Tag::Find, Answer::Ended) => None,
            (_, answer) => return Err(answer),
        };
        Ok(next.filter(|next| *next <= last))
    }

    /// Where a paused find goes on.
    #[must_use]
    pub fn paused_at(self) -> Option<u64> {
        (self.answer == Answer::Paused).then_some(self.index)
    }
}

/// As xabatch writes it: `load: done, 64 order 0 value 2 marks -, count 2`.
impl fmt::Display for Reply {
    fn fmt(&self, f: &mut fmt::Formatter) -> fmt::Result {
        write!(f, "{}: {}", self.tag, self.answer)?;
        if let Some(entry) = self.entry() {
            write!(f, ", {entry}")?;
        }
        if let Some(position) = self.paused_at() {
            write!(f, " at {}", Position(position))?;
        }
        if matches!(self.tag, Tag::Load | Tag::Find) {
            write!(f, ", count {}", self.count)?;
        }
        Ok(())
    }
}

/// Where a command stood, all counted from 0.
#[derive(Clone, Copy, Debug, PartialEq, Eq)]
pub struct Place {
    /// Its number among all commands.
    pub command: usize,
    /// The number of its batch.
    pub batch: usize,
    /// The place of its record's first byte in that batch.
    pub byte: usize,
}

impl fmt::Display for Place {
    fn fmt(&self, f: &mut fmt::Formatter) -> fmt::Result {
        write!(f, "command {}, in batch {} at byte {}", self.command, self.batch, self.byte)
    }
}

/// Not every command was done: the first that was not, and how many there are.
#[derive(Clone, Copy, Debug, PartialEq, Eq)]
pub struct NotDone {
    /// Where the first stood.
    pub place: Place,
    /// Its kind.
    pub tag: Tag,
    /// What it was answered in place of `Done`.
    pub answer: Answer,
    /// How many were not done, whatever they were answered.
    pub count: usize,
    /// How many commands there were.
    pub commands: usize,
}

impl fmt::Display for NotDone {
    fn fmt(&self, f: &mut fmt::Formatter) -> fmt::Result {
        let NotDone { place, tag, answer, count, commands } = self;
        write!(f, "{count} of {commands} commands not done; first {place}: {tag}: {answer}")
    }
}

impl std::error::Error for NotDone {}

/// The replies to one batch, or to several, in the order of the commands. They know where each command
/// stood: [`Replies::place`].
#[derive(Clone, Debug, Default, PartialEq, Eq)]
#[must_use = "a reply may say that its command was not done"]
pub struct Replies {
    replies: Vec<Reply>,
    /// The number of the first command of each batch.
    starts: Vec<usize>,
}

impl Replies {
    pub(crate) fn read(bytes: &[u8]) -> Result<Replies, BadRecord> {
        let mut replies = Vec::with_capacity(bytes.len() / REPLY_BYTES);
        for (number, part) in bytes.chunks(REPLY_BYTES).enumerate() {
            let place = number * REPLY_BYTES;
            replies.push(Reply::read(part).ok_or(BadRecord { place })?);
        }
        let starts = if replies.is_empty() { Vec::new() } else { vec![0] };
        Ok(Replies { replies, starts })
    }

    /// What the program tamburish wrote to a batch of so many commands. It always exits with 0; only
    /// its output tells a whole run from a refused call and from output that was cut.
    pub fn of_program(output: &[u8], commands: usize) -> Result<Replies, ProgramError> {
        let cut = ProgramError::Cut { bytes: output.len() };
        if let Some((Record::Refused { answer, number }, REFUSAL_BYTES)) = read_record(output) {
            let whole = output.len() == REFUSAL_BYTES;
            return Err(if whole { ProgramError::Refused { answer, number } } else { cut });
        }
        match Replies::read(output) {
            Ok(replies) if replies.len() == commands => Ok(replies),
            _ => Err(cut),
        }
    }

    pub(crate) fn append(&mut self, mut more: Replies) {
        let before = self.len();
        self.starts.extend(more.starts.iter().map(|start| before + start));
        self.replies.append(&mut more.replies);
    }

    /// How many commands there were if every one is answered `Done`; else which was not, first. A find
    /// that ended or paused is not done. Of no commands it is 0: hold the number against what you planned.
    ///
    /// ```
    /// # use xapool_host::{Answer, Command, Pool, Word};
    /// let mut pool = Pool::new(1)?;
    /// let store = |index| Command::Store { index, order: 0, word: Word(3) };
    /// assert_eq!(pool.run_all((0..64).map(store))?.all_done(), Ok(64));
    /// let not_done = pool.run_all((63..66).map(store))?.all_done().expect_err("one node has 64 slots");
    /// assert_eq!((not_done.place.command, not_done.place.byte), (1, 20));
    /// assert_eq!((not_done.answer, not_done.count), (Answer::TooFewNodes, 2));
    /// # Ok::<(), Box<dyn std::error::Error>>(())
    /// ```
    #[must_use = "a command may not be done"]
    pub fn all_done(&self) -> Result<usize, NotDone> {
        let not_done = |reply: &&Reply| reply.answer != Answer::Done;
        let commands = self.len();
        let first = self.replies.iter().position(|reply| not_done(&reply));
        let Some((place, reply)) = first.and_then(|at| Some((self.place(at)?, self.get(at)?)))
        else {
            return Ok(commands);
        };
        let count = self.replies.iter().filter(not_done).count();
        Err(NotDone { place, tag: reply.tag, answer: reply.answer, count, commands })
    }

    /// Where the command of this number, from 0, stood.
    #[must_use]
    pub fn place(&self, command: usize) -> Option<Place> {
        let batch = self.starts.partition_point(|start| *start <= command).checked_sub(1)?;
        let before = self.replies.get(*self.starts.get(batch)?..command)?;
        let byte = before.iter().map(|reply| reply.tag.record_bytes()).sum();
        (command < self.len()).then_some(Place { command, batch, byte })
    }

    /// How many batches they are of.
    #[must_use]
    pub fn batches(&self) -> usize {
        self.starts.len()
    }

    /// The replies in order.
    pub fn iter(&self) -> std::slice::Iter<'_, Reply> {
        self.replies.iter()
    }

    /// The reply to the command of this number, from 0.
    #[must_use]
    pub fn get(&self, command: usize) -> Option<&Reply> {
        self.replies.get(command)
    }

    /// All replies.
    #[must_use]
    pub fn as_slice(&self) -> &[Reply] {
        &self.replies
    }

    /// How many there are: one for each command.
    #[must_use]
    pub fn len(&self) -> usize {
        self.replies.len()
    }

    /// Whether there are none.
    #[must_use]
    pub fn is_empty(&self) -> bool {
        self.replies.is_empty()
    }
}

/// The reply to the command of this number; panics, as a slice does, if there is no such command.
impl Index<usize> for Replies {
    type Output = Reply;

    fn index(&self, command: usize) -> &Reply {
        &self.replies[command]
    }
}

/// Why the output of the program tamburish is not the replies to a batch.
#[derive(Clone, Copy, Debug, PartialEq, Eq)]
pub enum ProgramError {
    /// It refused the call.
    Refused {
        /// Why: answer 1 to 4.
        answer: Answer,
        /// The number that comes with it.
        number: u16,
    },
    /// It is not 24 bytes of replies a command: the output was cut, or is of another batch.
    Cut {
        /// How many bytes there are.
        bytes: usize,
    },
}

impl fmt::Display for ProgramError {
    fn fmt(&self, f: &mut fmt::Formatter) -> fmt::Result {
        match self {
            ProgramError::Refused { answer, number } => {
                write!(f, "refused: {answer}, number {number}")
            }
            ProgramError::Cut { bytes } => {
                write!(f, "{bytes} bytes are not 24 for each command: the output was cut")
            }
        }
    }
}

impl std::error::Error for ProgramError {}

impl<'a> IntoIterator for &'a Replies {
    type Item = &'a Reply;
    type IntoIter = std::slice::Iter<'a, Reply>;

    fn into_iter(self) -> Self::IntoIter {
        self.iter()
    }
}

impl IntoIterator for Replies {
    type Item = Reply;
    type IntoIter = std::vec::IntoIter<Reply>;

    fn into_iter(self) -> Self::IntoIter {
        self.replies.into_iter()
    }
}

/// A record in what the program tamburish writes.
#[derive(Clone, Copy, Debug, PartialEq, Eq)]
pub enum Record {
    /// The reply to one command.
    Reply(Reply),
    /// The call was refused: FF 0003, the answer, a two-byte number.
    Refused {
        /// Why: answer 1 to 4.
        answer: Answer,
        /// The number that comes with it.
        number: u16,
    },
}

impl fmt::Display for Record {
    fn fmt(&self, f: &mut fmt::Formatter) -> fmt::Result {
        match self {
            Record::Reply(reply) => reply.fmt(f),
            Record::Refused { answer, number } => {
                write!(f, "refused: {answer}, number {number}")
            }
        }
    }
}

/// Bytes that are neither a reply nor a refused call, with their place.
#[derive(Clone, Copy, Debug, PartialEq, Eq)]
pub struct BadRecord {
    /// The place of their first byte, from 0.
    pub place: usize,
}

impl fmt::Display for BadRecord {
    fn fmt(&self, f: &mut fmt::Formatter) -> fmt::Result {
        write!(f, "byte {}: neither a reply nor a refused call", self.place)
    }
}

impl std::error::Error for BadRecord {}

/// The records in a row of bytes; it ends after the first that is bad.
#[derive(Clone, Debug)]
#[must_use = "an iterator does nothing until it is asked"]
pub struct Records<'a> {
    bytes: &'a [u8],
    place: usize,
}

impl<'a> Records<'a> {
    /// Reads any bytes.
    pub fn of(bytes: &'a [u8]) -> Records<'a> {
        Records { bytes, place: 0 }
    }

    /// The bytes not yet read.
    #[must_use]
    pub fn rest(&self) -> &'a [u8] {
        self.bytes.get(self.place..).unwrap_or_default()
    }
}

fn read_record(bytes: &[u8]) -> Option<(Record, usize)> {
    if *bytes.first()? != REFUSAL_TAG {
        return Some((Record::Reply(Reply::read(bytes)?), REPLY_BYTES));
    }
    let answer = Answer::from_number(u64::from(*bytes.get(3)?))?;
    let known = short(bytes, 1)? == REFUSAL_FIELDS && (1..=4).contains(&answer.number());
    known.then_some((Record::Refused { answer, number: short(bytes, 4)? }, REFUSAL_BYTES))
}

impl Iterator for Records<'_> {
    type Item = Result<Record, BadRecord>;

    fn next(&mut self) -> Option<Self::Item> {
        let rest = self.bytes.get(self.place..).filter(|rest| !rest.is_empty())?;
        let place = self.place;
        match read_record(rest) {
            Some((record, size)) => {
                self.place += size;
                Some(Ok(record))
            }
            None => {
                self.place = self.bytes.len();
                Some(Err(BadRecord { place }))
            }
        }
    }
}
