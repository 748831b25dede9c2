//! What a file looks like by its bytes.

use std::fmt;
use xapool_host::layout::ROOT_TIER;
use xapool_host::{
    block_count, node_count, pool_words, Command, Entry, Names, Plain, Pool, Records, LISTED_BYTES,
    MOST_BLOCKS, MOST_ENTRIES, MOST_NODES, PLAIN_FILE, SCRIPT_FILE,
};

/// What is told apart from data.
#[derive(Clone, Copy, Debug, PartialEq, Eq)]
pub enum FileKind {
    Pool,
    Plain,
    Names,
    Script,
    List,
    Batch,
    Replies,
    Text,
}

impl fmt::Display for FileKind {
    fn fmt(&self, f: &mut fmt::Formatter) -> fmt::Result {
        f.write_str(match self {
            FileKind::Pool => "a pool file ('xabatch show' and 'xabatch list' read it)",
            FileKind::Plain => "a plain list ('xabatch list' and 'xabatch run --plain' read it)",
            FileKind::Names => "a pool of names ('xabatch names show' reads it)",
            FileKind::Script => "a script ('xabatch apply' and 'xabatch decode' read it)",
            FileKind::List => "a list as bytes ('xabatch decode' reads it)",
            FileKind::Batch => "a batch ('xabatch decode' and 'xabatch run' read it)",
            FileKind::Replies => "replies ('xabatch decode' reads them)",
            FileKind::Text => "text ('xabatch encode' reads commands)",
        })
    }
}

/// So much of a file is looked at to tell text.
const START: usize = 512;

impl FileKind {
    /// By the first bytes of a file: a guess for a message, and no more.
    #[must_use]
    pub fn guess(start: &[u8]) -> Option<FileKind> {
        if start.starts_with(&PLAIN_FILE) {
            return Some(FileKind::Plain);
        }
        if start.starts_with(&SCRIPT_FILE) {
            return Some(FileKind::Script);
        }
        // An empty pool of either kind begins as the other does: if all of it is here, its length tells.
        if is_names(start) {
            return Some(FileKind::Names);
        }
        if begins_a_pool(start) {
            return Some(FileKind::Pool);
        }
        if begins_names(start) {
            return Some(FileKind::Names);
        }
        if Command::read(start).is_some() {
            return Some(FileKind::Batch);
        }
        if Entry::read_listed(start).is_some() {
            return Some(FileKind::List);
        }
        if matches!(Records::of(start).next(), Some(Ok(_))) {
            return Some(FileKind::Replies);
        }
        is_text(start.get(..START).unwrap_or(start)).then_some(FileKind::Text)
    }
}

fn word(bytes: &[u8], place: usize) -> Option<u64> {
    Some(u64::from_le_bytes(*bytes.get(8 * place..)?.first_chunk()?))
}

/// The bytes of a pool file whose first word is this.
fn pool_bytes(first: u64) -> Option<usize> {
    Some(8 * pool_words(usize::try_from(first).ok()?)?)
}

/// The anchor's four words: nodes, head, marks and 0.
fn begins_a_pool(start: &[u8]) -> bool {
    let anchor = |place| word(start, place);
    let nodes = anchor(0).is_some_and(|nodes| (1..=MOST_NODES as u64).contains(&nodes));
    nodes && anchor(2).is_some_and(|marks| marks < 8) && anchor(3) == Some(0)
}

/// The two words before the blocks, and the first two of a block: tier + 1 and what a shortcut skips.
fn begins_names(start: &[u8]) -> bool {
    let up_to = |place, most: u64| word(start, place).is_some_and(|word| word <= most);
    let blocks = word(start, 0).filter(|blocks| (1..=MOST_BLOCKS as u64).contains(blocks));
    let tier = ROOT_TIER as u64;
    blocks.is_some_and(|blocks| up_to(1, blocks)) && up_to(2, tier + 1) && up_to(3, tier)
}

/// Whether the first word is the count that the length calls for.
fn has_its_count(bytes: &[u8], count: fn(usize) -> Option<usize>) -> bool {
    let of_length = count(bytes.len() / 8).map(|count| count as u64);
    bytes.len().is_multiple_of(8) && of_length.is_some() && word(bytes, 0) == of_length
}

/// Whether the first word has as many nodes as the length: then it is a pool file, whatever else it is. It is no pool of
/// names then: 4 + 70 N is 2 + 24 N for no N.
#[must_use]
pub fn is_pool(bytes: &[u8]) -> bool {
    has_its_count(bytes, node_count)
}

/// The same of a pool of names and its blocks. No file is both.
#[must_use]
pub fn is_names(bytes: &[u8]) -> bool {
    has_its_count(bytes, block_count)
}

fn is_text(start: &[u8]) -> bool {
    let plain = |byte: &u8| byte.is_ascii_graphic() || byte.is_ascii_whitespace();
    start.iter().any(u8::is_ascii_graphic) && start.iter().all(plain)
}

/// Looks at a file as it goes by in pieces, and tells at the end whether it is a pool, a pool of names or a plain list, by
/// the library's own checks, or a list.
#[derive(Clone, Debug)]
pub struct Sniffer {
    /// All bytes so far, while they may be those of a pool: no more than a pool has, and a piece. A pool of names with the
    /// same first word has fewer.
    pool: Option<Vec<u8>>,
    /// The same, while they may be those of a plain list.
    plain: Option<Vec<u8>>,
    /// How many bytes went by, while all may be those of a list.
    list: Option<usize>,
}

impl Default for Sniffer {
    fn default() -> Sniffer {
        Sniffer { pool: Some(Vec::new()), plain: Some(Vec::new()), list: Some(0) }
    }
}

impl Sniffer {
    pub fn take(&mut self, piece: &[u8]) {
        self.list = self.list.filter(|seen| goes_on_as_list(*seen, piece));
        self.list = self.list.map(|seen| seen + piece.len());
        if let Some(bytes) = &mut self.plain {
            bytes.extend(piece);
            let start = bytes.len().min(PLAIN_FILE.len());
            if bytes[..start] != PLAIN_FILE[..start] || bytes.len() > MOST_PLAIN_BYTES {
                self.plain = None;
            }
        }
        if let Some(bytes) = &mut self.pool {
            bytes.extend(piece);
            let most = word(bytes, 0).map_or(Some(8), pool_bytes);
            if most.is_none_or(|most| bytes.len() > most) {
                self.pool = None;
            }
        }
    }

    /// A list that was cut is one too.
    #[must_use]
    pub fn kind(self) -> Option<FileKind> {
        let is_pool = |bytes: &Vec<u8>| Pool::from_bytes(bytes).is_ok();
        if self.pool.as_ref().is_some_and(is_pool) {
            return Some(FileKind::Pool);
        }
        let is_names = |bytes: &Vec<u8>| Names::from_bytes(bytes).is_ok();
        if self.pool.as_ref().is_some_and(is_names) {
            return Some(FileKind::Names);
        }
        let is_plain = |bytes: &Vec<u8>| Plain::from_bytes(bytes).is_ok();
        if self.plain.as_ref().is_some_and(is_plain) {
            return Some(FileKind::Plain);
        }
        self.list.is_some_and(|seen| seen >= LISTED_BYTES).then_some(FileKind::List)
    }
}

/// No plain list has more bytes.
const MOST_PLAIN_BYTES: usize = 16 + 32 * MOST_ENTRIES;

/// Each record of a list begins with its tag and length; so many bytes of it went by.
fn goes_on_as_list(seen: usize, piece: &[u8]) -> bool {
    let start = [32, 0, 18];
    let fits =
        |(place, byte): (usize, &u8)| start.get(place % LISTED_BYTES).is_none_or(|is| is == byte);
    (seen..).zip(piece).all(fits)
}
