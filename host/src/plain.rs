//! The plain engine: the entries as a sorted run in four slices.

use crate::answer::{Refusal, RefusedBatch};
use crate::batch::BatchBuilder;
use crate::command::Command;
use crate::engine::{ran, Engine};
use crate::layout::RESERVED_WORD;
use crate::pool::{bytes_of_words, words_of_bytes};
use crate::raw;
use crate::reply::{Entry, Marks, Replies};
use crate::word::Word;

/// Each slice of the plain engine has at most so many elements, one for each entry.
pub const MOST_ENTRIES: usize = 4096;

/// What a saved list begins with, so that no pool is taken for one: the first word of a pool is its nodes. Then come
/// the room and the four slices.
pub const PLAIN_FILE: [u8; 8] = *b"xaplain\n";

/// The words before the slices in a saved list.
const HEAD_WORDS: usize = 2;

#[derive(Debug)]
enum Slices<'a> {
    Owned([Vec<u64>; 4]),
    Borrowed([&'a mut [u64]; 4]),
}

/// The plain second engine: the same batches on entries that stand one after the other, in index order, in four
/// slices of equal length (index, order, word, marks), and then zeros. Who audits can read them at a glance.
///
/// Proved of the library's calls: a run gives the replies that the list prescribes and leaves the slices that hold the
/// new list; slices are refused exactly if they hold none; answer 11 comes exactly where the new list would have more entries than
/// room; and on every list of batches from empty in which no reply says 11 or 13, the replies are byte for byte
/// those of a [`Pool`](crate::Pool), but for the counts of load and find, which are 0 here. No find pauses. Not proved, as nothing in this
/// wrapper is: that it lends the right slices and reads them right ([`Plain::entries`], [`Plain::to_bytes`]).
///
/// ```
/// use xapool_host::{Command, Plain, Word};
///
/// let mut plain = Plain::new(2)?;
/// let replies = plain.run_all([
///     Command::Store { index: 64, order: 3, word: Word::value(2)? },
///     Command::Reserve { index: 7 },
///     Command::Mark { index: 70, mark: 1 },
/// ])?;
/// assert_eq!(replies.all_done()?, 3);
/// assert_eq!(plain.slices(), [&[7, 64], &[0, 3], &[1030, 5], &[0, 2]]);
/// # Ok::<(), Box<dyn std::error::Error>>(())
/// ```
#[derive(Debug)]
pub struct Plain<'a> {
    slices: Slices<'a>,
}

/// A copy that owns its slices, whether or not the original does.
impl Clone for Plain<'_> {
    fn clone(&self) -> Self {
        Plain { slices: Slices::Owned(self.slices().map(<[u64]>::to_vec)) }
    }
}

impl Plain<'static> {
    /// An empty list with room for 0 to [`MOST_ENTRIES`] entries, which owns its slices.
    pub fn new(room: usize) -> Result<Plain<'static>, Refusal> {
        if room > MOST_ENTRIES {
            return Err(Refusal::SliceLength);
        }
        let mut plain = Plain::from_slices([(); 4].map(|()| vec![0; room]));
        plain.init()?;
        Ok(plain)
    }

    /// Index, order, word and marks of a list that was kept. Nothing is checked here.
    #[must_use]
    pub fn from_slices(slices: [Vec<u64>; 4]) -> Plain<'static> {
        Plain { slices: Slices::Owned(slices) }
    }

    /// The list that [`Plain::to_bytes`] gave, checked.
    pub fn from_bytes(bytes: &[u8]) -> Result<Plain<'static>, Refusal> {
        let plain = Plain::from_slices(slices_of_bytes(bytes).ok_or(Refusal::SliceLength)?);
        plain.check()?;
        Ok(plain)
    }
}

/// The four slices of a saved list, whatever stands in them; none if its head or its length is wrong.
fn slices_of_bytes(bytes: &[u8]) -> Option<[Vec<u64>; 4]> {
    let words = words_of_bytes(bytes.strip_prefix(&PLAIN_FILE)?)?;
    let (room, slices) = words.split_first()?;
    let room = usize::try_from(*room).ok().filter(|room| *room <= MOST_ENTRIES)?;
    (slices.len() == 4 * room).then(|| {
        let slice = |at: usize| slices[at * room..(at + 1) * room].to_vec();
        [0, 1, 2, 3].map(slice)
    })
}

impl<'a> Plain<'a> {
    /// Borrowed slices (index, order, word, marks), as they are: call [`Plain::init`] if they hold no list yet.
    pub fn over(slices: [&'a mut [u64]; 4]) -> Plain<'a> {
        Plain { slices: Slices::Borrowed(slices) }
    }

    /// Makes it an empty list, all zeros, whatever stood there.
    pub fn init(&mut self) -> Result<(), Refusal> {
        Refusal::unless_plain_done(raw::plain_init(self.slices_mut())).map(|_| ())
    }

    /// Whether the slices hold a list and then zeros; a refusal says why they do not.
    pub fn check(&self) -> Result<(), Refusal> {
        Refusal::unless_plain_done(raw::plain_check(self.slices())).map(|_| ())
    }

    /// Runs a batch and gives its replies, one for each command.
    pub fn run(&mut self, batch: &BatchBuilder) -> Result<Replies, Refusal> {
        Engine::run(self, batch)
    }

    /// Runs any number of commands, as many batches as they need, and gives all replies: as
    /// [`Pool::run_all`](crate::Pool::run_all).
    pub fn run_all<T>(&mut self, commands: T) -> Result<Replies, RefusedBatch>
    where
        T: IntoIterator<Item = Command>,
    {
        Engine::run_all(self, commands)
    }

    /// Runs the bytes of a batch, whatever they are, into this reply space; gives how many
    /// commands ran, each with 24 bytes of replies.
    pub fn run_bytes(&mut self, batch: &[u8], reply: &mut [u8]) -> Result<usize, Refusal> {
        let result = raw::plain_run(self.slices_mut(), batch, reply);
        ran(Refusal::unless_plain_done(result)?, reply)
    }

    /// The entries and the reserved indices, in index order, read from the slices once they are checked.
    pub fn entries(&self) -> Result<Vec<Entry>, Refusal> {
        self.check()?;
        let [index, order, word, marks] = self.slices();
        let places = (0..word.len()).take_while(|at| word[*at] != 0);
        // What was checked has orders up to 63 and marks up to 7.
        let entry = |at: usize| match word[at] {
            RESERVED_WORD => Entry::reserved(index[at]),
            kept => {
                let (order, marks) = (order[at] as u8, Marks(marks[at] as u8));
                Entry { base: index[at], order, word: Word(kept), marks }
            }
        };
        Ok(places.map(entry).collect())
    }

    /// How many entries it has room for: the length of the first slice.
    #[must_use]
    pub fn room(&self) -> usize {
        self.slices()[0].len()
    }

    /// How many entries and reserved indices it holds: the words before the first 0.
    #[must_use]
    pub fn in_use(&self) -> usize {
        self.slices()[2].iter().take_while(|word| **word != 0).count()
    }

    /// The list as bytes, to be saved: [`PLAIN_FILE`], the room, and the four slices, each word lowest byte first.
    #[must_use]
    pub fn to_bytes(&self) -> Vec<u8> {
        let mut bytes = Vec::with_capacity(8 * (HEAD_WORDS + 4 * self.room()));
        bytes.extend(PLAIN_FILE);
        bytes.extend(bytes_of_words(&[self.room() as u64]));
        self.slices().iter().for_each(|slice| bytes.extend(bytes_of_words(slice)));
        bytes
    }

    /// Its slices: index, order, word and marks.
    #[must_use]
    pub fn slices(&self) -> [&[u64]; 4] {
        match &self.slices {
            Slices::Owned(slices) => slices.each_ref().map(Vec::as_slice),
            Slices::Borrowed(slices) => slices.each_ref().map(|slice| &**slice),
        }
    }

    /// The slices, to change them at will: what is no list is refused by the next call.
    pub fn slices_mut(&mut self) -> [&mut [u64]; 4] {
        match &mut self.slices {
            Slices::Owned(slices) => slices.each_mut().map(Vec::as_mut_slice),
            Slices::Borrowed(slices) => slices.each_mut().map(|slice| &mut **slice),
        }
    }

    /// The slices, copied if they are borrowed.
    #[must_use]
    pub fn into_slices(self) -> [Vec<u64>; 4] {
        match self.slices {
            Slices::Owned(slices) => slices,
            Slices::Borrowed(slices) => slices.map(|slice| slice.to_vec()),
        }
    }
}

impl Engine for Plain<'_> {
    fn init(&mut self) -> Result<(), Refusal> {
        Plain::init(self)
    }

    fn check(&self) -> Result<(), Refusal> {
        Plain::check(self)
    }

    fn run_bytes(&mut self, batch: &[u8], reply: &mut [u8]) -> Result<usize, Refusal> {
        Plain::run_bytes(self, batch, reply)
    }
}
