//! A command that changes the pool, in two halves: a script that is prepared and kept, and applied to that pool
//! and no other, also after a power cut.

use crate::answer::{Answer, Error, Refusal};
use crate::command::Command;
use crate::pool::{bytes_of_words, node_count, words_of_bytes, Pool};
use crate::raw::{self, RawResult};
use crate::region::Crc32c;
use std::fmt;

/// The first bytes of a script that was kept.
pub const SCRIPT_FILE: [u8; 8] = *b"xascript";
/// Head, words of the pool, pairs and digest of the rest.
const HEAD_WORDS: usize = 4;
/// Place, word before and word after.
const CHANGE_WORDS: usize = 3;
/// Room for the scripts of most commands; where it is too little, the library says how much there must be.
const FIRST_ROOM: usize = 512;

/// A word that a script changes.
#[derive(Clone, Copy, Debug, PartialEq, Eq)]
pub struct Change {
    /// Its place among the words of the pool, from 0.
    pub place: usize,
    /// The word in the pool that the script was prepared from.
    pub before: u64,
    /// The word that it becomes.
    pub after: u64,
}

/// What one command changes in the pool that it was prepared from, by [`Pool::prepare`]. [`Pool::apply_script`] writes
/// it, in that pool alone: the script knows the pool's length, a digest of the words that it does not write, and what
/// stood where it writes. So it knows that pool before, after, and wherever an apply was cut.
#[derive(Clone, Debug, PartialEq, Eq)]
#[must_use = "nothing is written until it is applied"]
pub struct Script {
    pool_words: usize,
    /// Of the pool's words with 0 at the places that it writes: the same before, between and after.
    rest: Crc32c,
    /// By rising place.
    changes: Vec<Change>,
}

/// A pool that a script was not prepared from: nothing is written.
#[derive(Clone, Copy, Debug, PartialEq, Eq)]
pub enum OtherPool {
    /// It has another length.
    Length {
        /// The words that it has.
        words: usize,
        /// The words of the script's pool.
        wanted: usize,
    },
    /// A word that the script writes is neither what it was nor what it becomes.
    Word {
        /// Its place, from 0.
        place: usize,
    },
    /// The words that the script does not write have another digest.
    Rest {
        /// That of this pool.
        found: Crc32c,
        /// That of the script's pool.
        wanted: Crc32c,
    },
}

impl fmt::Display for OtherPool {
    fn fmt(&self, f: &mut fmt::Formatter) -> fmt::Result {
        f.write_str("it is not the pool that the script was prepared from: ")?;
        match self {
            OtherPool::Length { words, wanted } => write!(f, "it has {words} words, not {wanted}"),
            OtherPool::Word { place } => {
                write!(f, "word {place} is neither what it was nor what it becomes")
            }
            OtherPool::Rest { found, wanted } => {
                write!(f, "the words that stay have the digest {found}, not {wanted}")
            }
        }
    }
}

impl std::error::Error for OtherPool {}

/// Why a script was not applied: nothing was written.
#[derive(Clone, Copy, Debug, PartialEq, Eq)]
pub enum ApplyError {
    /// It is the script of another pool, or another state of it.
    OtherPool(OtherPool),
    /// The call was refused.
    Refused(Refusal),
}

impl fmt::Display for ApplyError {
    fn fmt(&self, f: &mut fmt::Formatter) -> fmt::Result {
        match self {
            ApplyError::OtherPool(other) => other.fmt(f),
            ApplyError::Refused(refusal) => refusal.fmt(f),
        }
    }
}

impl std::error::Error for ApplyError {}

impl From<OtherPool> for ApplyError {
    fn from(other: OtherPool) -> ApplyError {
        ApplyError::OtherPool(other)
    }
}

impl From<Refusal> for ApplyError {
    fn from(refusal: Refusal) -> ApplyError {
        ApplyError::Refused(refusal)
    }
}

/// Why bytes are no script.
#[derive(Clone, Copy, Debug, PartialEq, Eq)]
#[non_exhaustive]
pub enum BadScriptBytes {
    /// They do not begin as one.
    Head,
    /// They are cut, or there are more than it has.
    Length,
    /// They have another digest than the one at their end: they were damaged.
    Digest,
    /// They are whole, and no library gives such a script: a place is outside the pool, or places do not rise.
    Places,
}

impl fmt::Display for BadScriptBytes {
    fn fmt(&self, f: &mut fmt::Formatter) -> fmt::Result {
        f.write_str(match self {
            BadScriptBytes::Head => "no script",
            BadScriptBytes::Length => "the script is cut, or something follows it",
            BadScriptBytes::Digest => "the script is damaged: its digest is another",
            BadScriptBytes::Places => {
                "no script of a pool: a place is outside the pool or does not rise"
            }
        })
    }
}

impl std::error::Error for BadScriptBytes {}

impl Refusal {
    /// What preparing gave: the words of the script, or why there is none, which may be the command's own answer.
    pub(crate) fn unless_prepared(result: RawResult) -> Result<u64, Error> {
        let RawResult { answer, number } = result;
        let unexpected = Refusal::Unexpected { answer, number };
        let refusal = match (Answer::from_number(answer), number) {
            (Some(Answer::Done), words) => return Ok(words),
            (Some(Answer::ReplySpace), words) => Refusal::ScriptSpace { words },
            (Some(Answer::PoolLength), 0) => Refusal::PoolLength,
            (Some(Answer::NotWellFormed), 0) => Refusal::NotWellFormed,
            (Some(Answer::BadBatch), 0) => Refusal::NotAChange,
            (Some(answer), 0) if is_of_change(answer) => return Err(Error::Answered(answer)),
            _ => unexpected,
        };
        Err(Error::Refused(refusal))
    }
}

/// Whether a command that changes the pool can be answered with it.
fn is_of_change(answer: Answer) -> bool {
    let of_field = [Answer::BadOrder, Answer::NotAligned, Answer::BadEntry, Answer::BadMark];
    let of_pool = [Answer::Absent, Answer::TooFewNodes, Answer::Covered];
    of_field.contains(&answer) || of_pool.contains(&answer)
}

impl Pool<'_> {
    /// The script of a command that changes the pool: store, erase, mark, unmark or reserve. Nothing is written in the
    /// pool. An error is the refusal of the call, or what the command itself would be answered. Keep the script
    /// ([`Script::to_bytes`]) on storage of its own before it is applied, and forget it only when the pool is on its
    /// storage.
    ///
    /// ```
    /// # use xapool_host::{Answer, Command, Error, Pool, Refusal, Script, Word};
    /// let mut pool = Pool::new(40)?;
    /// let script = pool.prepare(Command::Store { index: 64, order: 0, word: Word::value(2)? })?;
    /// assert_eq!(pool.list(..)?.len(), 0); // nothing is written yet
    /// let kept = script.to_bytes();
    ///
    /// pool.apply(&script.words()[..4])?; // the power goes after two words
    /// assert_eq!(pool.check(), Err(Refusal::NotWellFormed));
    /// pool.apply_script(&Script::from_bytes(&kept)?)?; // at the next start
    /// assert_eq!(pool.list(..)?.len(), 1);
    ///
    /// let absent = pool.prepare(Command::Erase { index: 65 });
    /// assert_eq!(absent, Err(Error::Answered(Answer::Absent)));
    /// # Ok::<(), Box<dyn std::error::Error>>(())
    /// ```
    pub fn prepare(&self, command: Command) -> Result<Script, Error> {
        let mut record = Vec::new();
        command.write(&mut record);
        self.prepare_record(&record)
    }

    /// The same for the bytes of one record, as they stand in a batch.
    pub fn prepare_record(&self, record: &[u8]) -> Result<Script, Error> {
        let mut words = vec![0; FIRST_ROOM];
        let used = match self.prepare_words(record, &mut words) {
            Err(Error::Refused(Refusal::ScriptSpace { words: wanted })) => {
                let room = usize::try_from(wanted).ok().filter(|room| *room <= self.most_words());
                let unexpected = Refusal::Unexpected { answer: 4, number: wanted };
                words = vec![0; room.ok_or(unexpected)?];
                self.prepare_words(record, &mut words)
            }
            other => other,
        }?;
        words.truncate(used);
        // The library gives places of the pool, by rising place; another one would be told here.
        let unexpected = Refusal::Unexpected { answer: 0, number: used as u64 };
        Ok(Script::of(self.words(), &words).ok_or(unexpected)?)
    }

    /// The script of one record into these words; gives how many it has. Words past them stay as they were, and all do
    /// where it is refused.
    pub fn prepare_words(&self, record: &[u8], script: &mut [u64]) -> Result<usize, Error> {
        let words = Refusal::unless_prepared(raw::prepare(self.words(), record, script))?;
        let fits = usize::try_from(words).ok().filter(|words| *words <= script.len());
        Ok(fits.ok_or(Refusal::Unexpected { answer: 0, number: words })?)
    }

    /// No script of this pool has more words.
    fn most_words(&self) -> usize {
        self.words().len().saturating_mul(2)
    }

    /// Writes a script in the pool that it was prepared from; also where an apply of it was cut, or has ended. Any other
    /// pool is refused, and so is this one once another command has changed it. The pool need not be well-formed: it
    /// is not where an apply was cut.
    pub fn apply_script(&mut self, script: &Script) -> Result<(), ApplyError> {
        script.written_in(self)?;
        Ok(self.apply(&script.words())?)
    }
}

impl Script {
    /// What these pairs change in these words; none if a place is outside of them or does not rise.
    fn of(words: &[u64], pairs: &[u64]) -> Option<Script> {
        let mut changes = Vec::new();
        let halves = pairs.chunks_exact(2);
        if !halves.remainder().is_empty() {
            return None;
        }
        for pair in halves {
            let place = usize::try_from(pair[0]).ok()?;
            changes.push(Change { place, before: *words.get(place)?, after: pair[1] });
        }
        let script = Script { pool_words: words.len(), rest: rest_of(words, &changes), changes };
        script.has_good_places().then_some(script)
    }

    /// What changes, by rising place.
    #[must_use]
    pub fn changes(&self) -> &[Change] {
        &self.changes
    }

    /// Whether the command changes nothing, as a mark that is set already.
    #[must_use]
    pub fn is_empty(&self) -> bool {
        self.changes.is_empty()
    }

    /// The words of the pool that it is for.
    #[must_use]
    pub fn pool_words(&self) -> usize {
        self.pool_words
    }

    /// The digest of the words of that pool which it does not write.
    pub fn rest(&self) -> Crc32c {
        self.rest
    }

    /// The script as the library has it: place and new word of each change in turn. [`Pool::apply`] takes them, and looks
    /// at no digest.
    #[must_use]
    pub fn words(&self) -> Vec<u64> {
        self.changes.iter().flat_map(|change| [change.place as u64, change.after]).collect()
    }

    /// How many of the changes are in the pool: none before it is applied, all of them after, and some where an apply
    /// was cut. An error says that it is not the pool that the script was prepared from.
    pub fn written_in(&self, pool: &Pool) -> Result<usize, OtherPool> {
        let words = pool.words();
        if words.len() != self.pool_words {
            return Err(OtherPool::Length { words: words.len(), wanted: self.pool_words });
        }
        let mut written = 0;
        for change in &self.changes {
            match words.get(change.place) {
                Some(word) if *word == change.after => written += 1,
                Some(word) if *word == change.before => {}
                _ => return Err(OtherPool::Word { place: change.place }),
            }
        }
        let (found, wanted) = (rest_of(words, &self.changes), self.rest);
        (found == wanted).then_some(written).ok_or(OtherPool::Rest { found, wanted })
    }

    /// The script as bytes, to be kept until it is applied and the pool is on its storage: words of 8 bytes, lowest byte
    /// first. They are [`SCRIPT_FILE`], the words of the pool, the changes, the digest of the words that stay, then
    /// place, word before and word after of each change, and the digest of all bytes before it.
    #[must_use]
    pub fn to_bytes(&self) -> Vec<u8> {
        let (words, changes) = (self.pool_words as u64, self.changes.len() as u64);
        let mut kept = vec![words, changes, u64::from(self.rest.value())];
        let change = |change: &Change| [change.place as u64, change.before, change.after];
        kept.extend(self.changes.iter().flat_map(change));
        let mut bytes = SCRIPT_FILE.to_vec();
        bytes.extend(bytes_of_words(&kept));
        let digest = Crc32c::of(&bytes).value();
        bytes.extend(u64::from(digest).to_le_bytes());
        bytes
    }

    /// The script that was kept so. One that is cut or damaged is refused: it was never whole on its storage, so it was
    /// never begun.
    pub fn from_bytes(bytes: &[u8]) -> Result<Script, BadScriptBytes> {
        if !bytes.starts_with(&SCRIPT_FILE) {
            return Err(BadScriptBytes::Head);
        }
        let kept = words_of_bytes(bytes).ok_or(BadScriptBytes::Length)?;
        let Some((digest, kept)) = kept.split_last().filter(|(_, kept)| kept.len() >= HEAD_WORDS)
        else {
            return Err(BadScriptBytes::Length);
        };
        let (head, changes) = kept.split_at(HEAD_WORDS);
        // A count that was damaged is not to be told as a cut, nor a cut as damage: what all bytes say comes first.
        let whole = bytes.get(..8 * kept.len()).unwrap_or_default();
        let is_whole = u64::from(Crc32c::of(whole).value()) == *digest;
        let wanted = head[2].checked_mul(CHANGE_WORDS as u64);
        match (wanted == Some(changes.len() as u64), is_whole) {
            (false, _) => return Err(BadScriptBytes::Length),
            (true, false) => return Err(BadScriptBytes::Digest),
            (true, true) => {}
        }
        Script::of_words(head, changes).ok_or(BadScriptBytes::Places)
    }

    /// Out of words that have their digest and number.
    fn of_words(head: &[u64], changes: &[u64]) -> Option<Script> {
        let change = |words: &[u64]| {
            let place = usize::try_from(words[0]).ok()?;
            Some(Change { place, before: words[1], after: words[2] })
        };
        let changes = changes.chunks_exact(CHANGE_WORDS).map(change).collect::<Option<_>>()?;
        let rest = Crc32c::from_value(u32::try_from(head[3]).ok()?);
        let script = Script { pool_words: usize::try_from(head[1]).ok()?, rest, changes };
        script.has_good_places().then_some(script)
    }

    fn has_good_places(&self) -> bool {
        let rises = self.changes.windows(2).all(|two| two[0].place < two[1].place);
        let inside = self.changes.iter().all(|change| change.place < self.pool_words);
        rises && inside && node_count(self.pool_words).is_some()
    }
}

/// The digest of the words with 0 at the places of the changes.
fn rest_of(words: &[u64], changes: &[Change]) -> Crc32c {
    let mut rest = words.to_vec();
    for change in changes {
        if let Some(word) = rest.get_mut(change.place) {
            *word = 0;
        }
    }
    Crc32c::of(&bytes_of_words(&rest))
}
