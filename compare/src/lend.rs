//! One call by both: by reference on its own buffers, by the library on buffers that end at an
//! unreadable page. Result, every word and every byte lent to be written are compared.

use crate::batches::hex;
use crate::os::Guarded;
use reference::batch::{MOST_BATCH_BYTES, REPLY_BYTES};
use reference::calls;
use reference::listing::LISTED_BYTES;
use reference::pool::{pool_length, MOST_NODES};
use xapool_host::layout::{
    ANCHOR_WORDS, COUNT_FIELD, MARK_FIELD, NODE_WORDS, OWNER_FIELD, SHIFT_FIELD, SLOTS, SLOT_FIELD,
};
use xapool_host::raw;

#[derive(Clone, Debug, PartialEq, Eq)]
pub enum Call {
    Init,
    Check,
    Run {
        batch: Vec<u8>,
        reply: usize,
    },
    /// The listing (P1), into a buffer of so many bytes.
    List {
        first: u64,
        last: u64,
        buffer: usize,
    },
}

impl Call {
    /// How many bytes it is lent to write: reply space or buffer, if it has any such.
    fn space(&self) -> Option<usize> {
        match self {
            Call::Init | Call::Check => None,
            Call::Run { reply, .. } => Some(*reply),
            Call::List { buffer, .. } => Some(*buffer),
        }
    }

    /// What it writes there one after the other, and the size of one.
    fn unit(&self) -> (&'static str, usize) {
        match self {
            Call::List { .. } => ("entry", LISTED_BYTES),
            _ => ("reply", REPLY_BYTES),
        }
    }
}

/// Room for what is too long as well.
const MOST_LENT_BYTES: usize = MOST_BATCH_BYTES + 4000;
/// Enough for every entry of a pool in which all slots are entries.
const MOST_SPACE_BYTES: usize = LISTED_BYTES * SLOTS * MOST_NODES + 1000;

/// How many bytes before a lent buffer are watched.
const EDGE: usize = 512;
pub const EDGE_BYTE: u8 = 0xA5;
pub const EDGE_WORD: u64 = 0xA5A5_A5A5_A5A5_A5A5;

/// What is in the reply space or the buffer before a call.
pub fn space_byte(place: usize) -> u8 {
    (place % 251) as u8 ^ 0x5A
}

/// The buffers that the library is lent.
pub struct Lender {
    pool: Guarded,
    batch: Guarded,
    space: Guarded,
}

/// The last `count` elements with what stands before them.
pub fn split<T>(all: &mut [T], count: usize) -> (&mut [T], &mut [T]) {
    let start = all.len() - count;
    let (before, lent) = all.split_at_mut(start);
    let from = before.len().saturating_sub(EDGE);
    (&mut before[from..], lent)
}

/// The first `count` elements, behind what stands after them: as `split` with the unreadable page before them.
pub fn split_front<T>(all: &mut [T], count: usize) -> (&mut [T], &mut [T]) {
    let (lent, after) = all.split_at_mut(count);
    let to = after.len().min(EDGE);
    (&mut after[..to], lent)
}

/// What a call gave: the result, and the bytes of its reply space or buffer after it.
#[derive(Clone, Debug, PartialEq, Eq)]
pub struct Given {
    pub answer: u64,
    pub number: u64,
    pub bytes: Vec<u8>,
}

impl Lender {
    pub fn new() -> Lender {
        Lender {
            pool: Guarded::new(8 * pool_length(MOST_NODES + 1)),
            batch: Guarded::new(MOST_LENT_BYTES),
            space: Guarded::new(MOST_SPACE_BYTES),
        }
    }

    /// Puts words into the lent pool.
    pub fn set_pool(&mut self, words: &[u64]) {
        let (edge, pool) = split(self.pool.words(), words.len());
        edge.fill(EDGE_WORD);
        pool.copy_from_slice(words);
    }

    /// The lent pool of so many words.
    pub fn pool(&mut self, words: usize) -> &[u64] {
        split(self.pool.words(), words).1
    }

    /// The call by the library, on the lent pool of so many words.
    pub fn call(&mut self, call: &Call, words: usize) -> Given {
        match call {
            Call::Init => given(raw::init(split(self.pool.words(), words).1), &[]),
            Call::Check => {
                self.pool.read_only(true);
                let result = raw::check(split(self.pool.words(), words).1);
                self.pool.read_only(false);
                given(result, &[])
            }
            Call::Run { batch, reply } => self.run(batch, *reply, words),
            Call::List { first, last, buffer } => self.list(*first, *last, *buffer, words),
        }
    }

    fn run(&mut self, batch: &[u8], reply: usize, words: usize) -> Given {
        let space = fresh_space(&mut self.space, reply);
        split(self.batch.bytes(), batch.len()).1.copy_from_slice(batch);
        self.batch.read_only(true);
        let lent = split(self.batch.bytes(), batch.len()).1;
        let result = raw::run(split(self.pool.words(), words).1, lent, space);
        self.batch.read_only(false);
        given(result, split(self.space.bytes(), reply).1)
    }

    fn list(&mut self, first: u64, last: u64, buffer: usize, words: usize) -> Given {
        let space = fresh_space(&mut self.space, buffer);
        self.pool.read_only(true);
        let result = raw::list(split(self.pool.words(), words).1, first, last, space);
        self.pool.read_only(false);
        given(result, split(self.space.bytes(), buffer).1)
    }

    /// Whether something before a lent buffer was written.
    fn edge_written(&mut self, words: usize, space: Option<usize>) -> Option<String> {
        let pool = split(self.pool.words(), words).0.iter().all(|word| *word == EDGE_WORD);
        let space = space.is_none_or(|space| {
            split(self.space.bytes(), space).0.iter().all(|byte| *byte == EDGE_BYTE)
        });
        match (pool, space) {
            (true, true) => None,
            (false, _) => Some("a word before the pool was written".into()),
            _ => Some("a byte before the reply space or buffer was written".into()),
        }
    }

    /// Whether the count of a batch by itself differs from what reference reads.
    fn miscounted(&mut self, call: &Call) -> Option<String> {
        let Call::Run { batch, .. } = call else { return None };
        split(self.batch.bytes(), batch.len()).1.copy_from_slice(batch);
        self.batch.read_only(true);
        let found = raw::count(split(self.batch.bytes(), batch.len()).1);
        self.batch.read_only(false);
        let (answer, number) = match reference::batch::read(batch) {
            Ok(commands) => (0, commands.len()),
            Err(place) => (3, place),
        };
        let same = (found.answer, found.number) == (answer, number as u64);
        (!same).then(|| format!("the count is {found:?}, not {answer}, {number}"))
    }

    /// Makes the call by both and says the first difference. `pool` is reference's pool; the lent
    /// one has the same words before.
    pub fn difference(&mut self, call: &Call, pool: &mut [u64]) -> (Given, Option<String>) {
        let expected = by_reference(call, pool);
        let found = self.call(call, pool.len());
        let lent = split(self.pool.words(), pool.len()).1;
        let difference =
            given_differs(call, &expected, &found, "library").or_else(|| words(pool, lent));
        let difference = difference.or_else(|| self.edge_written(pool.len(), call.space()));
        let difference = difference.or_else(|| self.miscounted(call));
        (expected, difference)
    }
}

/// The space to be lent, with what stands in it and before it.
fn fresh_space(all: &mut Guarded, count: usize) -> &mut [u8] {
    let (edge, space) = split(all.bytes(), count);
    edge.fill(EDGE_BYTE);
    space.iter_mut().enumerate().for_each(|(place, byte)| *byte = space_byte(place));
    space
}

pub fn given(result: raw::RawResult, bytes: &[u8]) -> Given {
    Given { answer: result.answer, number: result.number, bytes: bytes.to_vec() }
}

pub fn by_reference(call: &Call, pool: &mut [u64]) -> Given {
    let mut space: Vec<u8> = (0..call.space().unwrap_or(0)).map(space_byte).collect();
    let outcome = match call {
        Call::Init => calls::init(pool),
        Call::Check => calls::check(pool),
        Call::Run { batch, .. } => calls::run(pool, batch, &mut space),
        Call::List { first, last, .. } => calls::list(pool, *first, *last, &mut space),
    };
    Given { answer: outcome.answer, number: outcome.number, bytes: space }
}

/// The first difference between what reference gives and what is found by another.
pub fn given_differs(call: &Call, expected: &Given, found: &Given, by: &str) -> Option<String> {
    results(expected, found, by).or_else(|| bytes(call, &expected.bytes, &found.bytes, by))
}

fn results(expected: &Given, found: &Given, by: &str) -> Option<String> {
    let (a, b) = (expected, found);
    ((a.answer, a.number) != (b.answer, b.number)).then(|| {
        format!(
            "reference gives answer {}, number {}; the {by} {}, {}",
            a.answer, a.number, b.answer, b.number
        )
    })
}

fn bytes(call: &Call, expected: &[u8], found: &[u8], by: &str) -> Option<String> {
    let place = (0..expected.len()).find(|at| expected[*at] != found[*at])?;
    let (name, size) = call.unit();
    let from = place - place % size;
    let part = |bytes: &[u8]| hex(&bytes[from..bytes.len().min(from + size)]);
    Some(format!(
        "{name} byte {place} differs, in {name} {}:\n    reference {}\n    {by:9} {}",
        place / size,
        part(expected),
        part(found)
    ))
}

fn words(expected: &[u64], found: &[u64]) -> Option<String> {
    let place = (0..expected.len()).find(|place| expected[*place] != found[*place])?;
    let all = (0..expected.len()).filter(|place| expected[*place] != found[*place]).count();
    Some(format!(
        "{all} words differ, the first is word {place} ({}): reference has {:#x}, the library {:#x}",
        place_name(place),
        expected[place],
        found[place]
    ))
}

fn place_name(place: usize) -> String {
    match (place.checked_sub(ANCHOR_WORDS), place) {
        (None, 0) => "N".into(),
        (None, 1) => "head".into(),
        (None, 2) => "marks".into(),
        (None, _) => "fourth word".into(),
        (Some(after), _) => match (after / NODE_WORDS, after % NODE_WORDS) {
            (node, SHIFT_FIELD) => format!("node {node}, shift + 1"),
            (node, OWNER_FIELD) => format!("node {node}, owner"),
            (node, COUNT_FIELD) => format!("node {node}, filled count"),
            (node, field @ MARK_FIELD..SLOT_FIELD) => {
                format!("node {node}, mark word {}", field - MARK_FIELD)
            }
            (node, field) => format!("node {node}, slot {}", field - SLOT_FIELD),
        },
    }
}
