//! A pool that owns or borrows its words.

use crate::answer::{Refusal, RefusedBatch};
use crate::batch::BatchBuilder;
use crate::command::Command;
use crate::engine::{ran, Engine};
use crate::find::{ends, Finds};
use crate::layout::{node_place, ANCHOR_WORDS, NODE_WORDS, SLOTS};
use crate::list::{Listing, LISTED_BYTES};
use crate::raw;
use crate::reply::Replies;
use std::ops::RangeBounds;

/// A pool has at most so many nodes.
pub const MOST_NODES: usize = 16_384;

/// The words of a pool of this many nodes; none unless they are 1 to [`MOST_NODES`].
#[must_use]
pub fn pool_words(nodes: usize) -> Option<usize> {
    (1..=MOST_NODES).contains(&nodes).then(|| node_place(nodes))
}

/// The nodes of a pool of this many words; none if no pool has so many.
#[must_use]
pub fn node_count(words: usize) -> Option<usize> {
    let nodes = words.checked_sub(ANCHOR_WORDS)? / NODE_WORDS;
    (pool_words(nodes) == Some(words)).then_some(nodes)
}

/// The nodes that entries of order 0 at every index of the range need in an empty pool, in whatever
/// order they are stored; also more than a pool can have. Where the range does not begin at 0, the
/// nodes that lead to it from the head are among them. Of several ranges in one pool, the sum and 10
/// for each range but one are enough. Index 0 alone needs none, though a pool has one at least.
///
/// ```
/// use xapool_host::{nodes_for, MOST_NODES};
///
/// assert_eq!(nodes_for(..1_032_128), MOST_NODES);
/// assert_eq!(nodes_for(..1_032_129), MOST_NODES + 1);
/// assert_eq!(nodes_for(1 << 40..=1 << 40), 7); // shifts 36, 30, .., 0
/// ```
#[must_use]
pub fn nodes_for(range: impl RangeBounds<u64>) -> usize {
    let Some((mut first, mut last)) = ends(range) else { return 0 };
    let mut nodes = 0u64;
    // One entry at 0 is the head itself. Else each pass is a shift: a node for each 64 of the one below.
    while last > 0 {
        (first, last) = (first / SLOTS as u64, last / SLOTS as u64);
        nodes += last - first + 1;
    }
    usize::try_from(nodes).unwrap_or(usize::MAX)
}

/// Words as they are saved: in order, each as 8 bytes, lowest byte first.
#[must_use]
pub fn bytes_of_words(words: &[u64]) -> Vec<u8> {
    words.iter().flat_map(|word| word.to_le_bytes()).collect()
}

/// The words that were saved so; none if the last one is not whole.
#[must_use]
pub fn words_of_bytes(bytes: &[u8]) -> Option<Vec<u64>> {
    let words = bytes.chunks_exact(8);
    let word = |bytes: &[u8]| bytes.iter().rev().fold(0, |word, byte| word << 8 | u64::from(*byte));
    words.remainder().is_empty().then(|| words.map(word).collect())
}

#[derive(Debug)]
enum Words<'a> {
    Owned(Vec<u64>),
    Borrowed(&'a mut [u64]),
}

/// The words of a pool. Whatever words it is given, the library checks them with each call.
#[derive(Debug)]
pub struct Pool<'a> {
    words: Words<'a>,
}

/// A copy that owns its words, whether or not the pool does.
impl Clone for Pool<'_> {
    fn clone(&self) -> Self {
        Pool { words: Words::Owned(self.words().to_vec()) }
    }
}

impl Pool<'static> {
    /// An empty pool of 1 to [`MOST_NODES`] nodes that owns its words.
    pub fn new(nodes: usize) -> Result<Pool<'static>, Refusal> {
        let size = pool_words(nodes).ok_or(Refusal::PoolLength)?;
        let mut pool = Pool { words: Words::Owned(vec![0; size]) };
        pool.init()?;
        Ok(pool)
    }

    /// Words that were a pool before. Nothing is checked here.
    #[must_use]
    pub fn from_words(words: Vec<u64>) -> Pool<'static> {
        Pool { words: Words::Owned(words) }
    }

    /// The pool that [`Pool::to_bytes`] gave, checked. The check knows the structure, not what was
    /// stored: [`Pool::load`] asks for a digest.
    pub fn from_bytes(bytes: &[u8]) -> Result<Pool<'static>, Refusal> {
        let pool = Pool::from_words(words_of_bytes(bytes).ok_or(Refusal::PoolLength)?);
        pool.check()?;
        Ok(pool)
    }
}

impl<'a> Pool<'a> {
    /// Borrowed words, as they are: call [`Pool::init`] if they are no pool yet.
    pub fn over(words: &'a mut [u64]) -> Pool<'a> {
        Pool { words: Words::Borrowed(words) }
    }

    /// Makes it an empty pool, whatever stood there.
    pub fn init(&mut self) -> Result<(), Refusal> {
        Refusal::unless_done(raw::init(self.words_mut())).map(|_| ())
    }

    /// Whether the words are well-formed; a refusal says why they are not.
    pub fn check(&self) -> Result<(), Refusal> {
        Refusal::unless_done(raw::check(self.words())).map(|_| ())
    }

    /// Runs a batch and gives its replies, one for each command.
    pub fn run(&mut self, batch: &BatchBuilder) -> Result<Replies, Refusal> {
        Engine::run(self, batch)
    }

    /// Runs any number of commands, as many batches as they need, and gives all replies, which know the
    /// batch and the place of each ([`Replies::place`]). If the first batch is refused, nothing ran; only
    /// the pool can be at fault, and it tells that. If a later one is, which takes a fault of the memory,
    /// the error has the replies of those that ran.
    ///
    /// ```
    /// # use xapool_host::{nodes_for, Command, Pool, Word};
    /// let mut pool = Pool::new(nodes_for(..5000))?;
    /// let stores = (0..5000).map(|index| Command::Store { index, order: 0, word: Word(3) });
    /// let replies = pool.run_all(stores)?;
    /// assert_eq!(replies.all_done()?, 5000);
    /// assert_eq!(replies.place(4999).map(|place| (place.batch, place.byte)), Some((3, 1700)));
    /// # Ok::<(), Box<dyn std::error::Error>>(())
    /// ```
    pub fn run_all<T>(&mut self, commands: T) -> Result<Replies, RefusedBatch>
    where
        T: IntoIterator<Item = Command>,
    {
        Engine::run_all(self, commands)
    }

    /// Every entry that meets the range and has the mark `filter`, or any with
    /// [`FIND_ANY`](crate::FIND_ANY), in index order, each once. A reserved index is none.
    ///
    /// ```
    /// # use xapool_host::{Command, Pool, Word, FIND_ANY};
    /// # let mut pool = Pool::new(40)?;
    /// let replies = pool.run_all([
    ///     Command::Store { index: 8, order: 3, word: Word::value(1)? },
    ///     Command::Store { index: u64::MAX, order: 0, word: Word::value(2)? },
    /// ])?;
    /// replies.all_done()?;
    /// for entry in pool.find(.., FIND_ANY) {
    ///     println!("{}", entry?.base);
    /// }
    /// # Ok::<(), Box<dyn std::error::Error>>(())
    /// ```
    pub fn find(&mut self, range: impl RangeBounds<u64>, filter: u8) -> Finds<'_, 'a> {
        Finds::new(self, range, filter)
    }

    /// Every entry that meets the range, and every reserved index in it
    /// ([`Entry::is_reserved`](crate::Entry::is_reserved)), in index order, each once, in one call that
    /// only reads: an iterator over them, whose bytes can be kept as evidence. An entry that begins
    /// before the range or ends after it is listed whole. A range of no index has no entries.
    ///
    /// ```
    /// # use xapool_host::{Command, Pool, Word};
    /// # let mut pool = Pool::new(40)?;
    /// let replies = pool.run_all([
    ///     Command::Store { index: 8, order: 3, word: Word::value(1)? },
    ///     Command::Store { index: 64, order: 0, word: Word::value(2)? },
    ///     Command::Mark { index: 64, mark: 0 },
    /// ])?;
    /// assert_eq!(replies.all_done()?, 3);
    /// let list = pool.list(15..)?;
    /// assert_eq!((list.len(), list.bytes().len()), (2, 2 * 21));
    /// let lines: Vec<String> = list.map(|entry| entry.to_string()).collect();
    /// assert_eq!(lines, ["8 order 3 value 1 marks -", "64 order 0 value 2 marks 0"]);
    /// # Ok::<(), Box<dyn std::error::Error>>(())
    /// ```
    pub fn list(&self, range: impl RangeBounds<u64>) -> Result<Listing, Refusal> {
        let Some((first, last)) = ends(range) else {
            return self.check().map(|()| Listing::default());
        };
        // Without space it says how many there are; and the pool cannot change until it has it.
        let entries = match self.list_bytes(first, last, &mut []) {
            Err(Refusal::ListSpace { entries }) => entries,
            other => return other.map(|_| Listing::default()),
        };
        let unexpected = Refusal::Unexpected { answer: 0, number: entries };
        let bytes = usize::try_from(entries).ok().and_then(|count| count.checked_mul(LISTED_BYTES));
        let mut space = vec![0; bytes.ok_or(unexpected)?];
        let listed = self.list_bytes(first, last, &mut space)?;
        // The library lists what it counted, and good entries alone; another one would be told here.
        let list = Listing::read(space).map_err(|_| unexpected)?;
        (list.len() == listed).then_some(list).ok_or(unexpected)
    }

    /// Lists the entries and reserved indices from first to last into these bytes, 21 for each; gives
    /// how many there are.
    /// Bytes past them stay as they were, and all do where it is refused.
    pub fn list_bytes(&self, first: u64, last: u64, buffer: &mut [u8]) -> Result<usize, Refusal> {
        let entries = Refusal::unless_listed(raw::list(self.words(), first, last, buffer))?;
        let fits =
            usize::try_from(entries).ok().filter(|count| *count <= buffer.len() / LISTED_BYTES);
        fits.ok_or(Refusal::Unexpected { answer: 0, number: entries })
    }

    /// Runs the bytes of a batch, whatever they are, into this reply space; gives how many
    /// commands ran, each with 24 bytes of replies.
    pub fn run_bytes(&mut self, batch: &[u8], reply: &mut [u8]) -> Result<usize, Refusal> {
        ran(Refusal::unless_done(raw::run(self.words_mut(), batch, reply))?, reply)
    }

    /// Writes each word of a script: pairs of a place among the pool's words and a value; [`Pool::apply_script`] also sees
    /// to it that it is the script of this pool. The pool need not be
    /// well-formed: after a power cut in the middle of it the same script is applied again, and the words are
    /// those of the uncut call. That no word is ever written in part, and that nothing but this script was written
    /// in the pool that it was made for, is for the host to see to.
    ///
    /// ```
    /// # use xapool_host::{Pool, Refusal};
    /// let mut pool = Pool::new(40)?;
    /// pool.apply(&[1, 3])?; // word 1, the head, becomes entry 3 at index 0
    /// assert_eq!(pool.list(..)?.len(), 1);
    /// let beyond = pool.words().len() as u64;
    /// assert_eq!(pool.apply(&[1, 0, beyond, 0]), Err(Refusal::BadScript)); // nothing was written
    /// assert_eq!(pool.list(..)?.len(), 1);
    /// # Ok::<(), Box<dyn std::error::Error>>(())
    /// ```
    pub fn apply(&mut self, script: &[u64]) -> Result<(), Refusal> {
        Refusal::unless_applied(raw::apply(self.words_mut(), script))
    }

    /// How many nodes it has; none if no pool has so many words.
    #[must_use]
    pub fn nodes(&self) -> Option<usize> {
        node_count(self.words().len())
    }

    /// How many of its nodes are in use: a free node is all zeros. A store or a reserve needs at most
    /// 21 free ones.
    #[must_use]
    pub fn nodes_in_use(&self) -> usize {
        let nodes = self.words().get(ANCHOR_WORDS..).unwrap_or_default().chunks(NODE_WORDS);
        nodes.filter(|node| node.iter().any(|word| *word != 0)).count()
    }

    /// The pool as bytes, to be saved: its words in order, each lowest byte first.
    #[must_use]
    pub fn to_bytes(&self) -> Vec<u8> {
        bytes_of_words(self.words())
    }

    /// Its words: the anchor's, then those of each node ([`layout`](crate::layout)).
    #[must_use]
    pub fn words(&self) -> &[u64] {
        match &self.words {
            Words::Owned(words) => words,
            Words::Borrowed(words) => words,
        }
    }

    /// The words, to change them at will: a damaged pool is refused by the next call.
    pub fn words_mut(&mut self) -> &mut [u64] {
        match &mut self.words {
            Words::Owned(words) => words,
            Words::Borrowed(words) => words,
        }
    }

    /// The words, copied if they are borrowed.
    #[must_use]
    pub fn into_words(self) -> Vec<u64> {
        match self.words {
            Words::Owned(words) => words,
            Words::Borrowed(words) => words.to_vec(),
        }
    }
}

impl Engine for Pool<'_> {
    fn init(&mut self) -> Result<(), Refusal> {
        Pool::init(self)
    }

    fn check(&self) -> Result<(), Refusal> {
        Pool::check(self)
    }

    fn run_bytes(&mut self, batch: &[u8], reply: &mut [u8]) -> Result<usize, Refusal> {
        Pool::run_bytes(self, batch, reply)
    }
}
