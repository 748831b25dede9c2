//! The entries and reserved indices of a range as the library lists them: 21 bytes each, which can be
//! kept as evidence.

use crate::command::{number, short};
use crate::reply::{Entry, Marks};
use crate::word::Word;
use crate::MOST_ORDER;
use std::fmt;
use std::iter::FusedIterator;

/// Each entry of a list has exactly so many bytes.
pub const LISTED_BYTES: usize = 21;
const LISTED_TAG: u8 = 32;
const LISTED_FIELDS: u16 = 18;
const ALL_MARKS: u8 = 7;

impl Entry {
    /// The entry at the start of the bytes of a list, or the reserved index, which has the word 0, order 0
    /// and no marks; none if they do not begin with one. [`Listing::read`] looks closer: whether a pool can
    /// hold it, and after the one before it.
    #[must_use]
    pub fn read_listed(bytes: &[u8]) -> Option<Entry> {
        let entry = read_entry(bytes)?;
        let whole = !entry.is_reserved() || entry == Entry::reserved(entry.base);
        (entry.order <= MOST_ORDER && entry.marks.0 <= ALL_MARKS && whole).then_some(entry)
    }

    /// Why no pool holds it, by itself.
    fn fault(self) -> Option<ListFault> {
        let Entry { base, order, word, marks } = self;
        // Where the base is a multiple of 2^order the run ends below 2^64.
        let aligned = 1u64.checked_shl(order.into()).is_some_and(|run| base.is_multiple_of(run));
        let whole = !self.is_reserved() || self == Entry::reserved(base);
        let faults = [
            (order > MOST_ORDER || !aligned, ListFault::Run),
            (!word.is_entry() && !self.is_reserved(), ListFault::Word),
            (marks.0 > ALL_MARKS, ListFault::Marks),
            (!whole, ListFault::Reserved),
        ];
        faults.into_iter().find(|(is, _)| *is).map(|(_, fault)| fault)
    }

    /// The entry as the library lists it.
    #[must_use]
    pub fn listed(self) -> [u8; LISTED_BYTES] {
        let mut bytes = [0; LISTED_BYTES];
        bytes[0] = LISTED_TAG;
        bytes[1..3].copy_from_slice(&LISTED_FIELDS.to_be_bytes());
        bytes[3..11].copy_from_slice(&self.base.to_be_bytes());
        bytes[11] = self.order;
        bytes[12..20].copy_from_slice(&self.word.0.to_be_bytes());
        bytes[20] = self.marks.0;
        bytes
    }
}

/// The entry at the start of the bytes of a list, whatever it says.
fn read_entry(bytes: &[u8]) -> Option<Entry> {
    if *bytes.first()? != LISTED_TAG || short(bytes, 1)? != LISTED_FIELDS {
        return None;
    }
    let (base, order) = (number(bytes, 3)?, *bytes.get(11)?);
    let (word, marks) = (Word(number(bytes, 12)?), Marks(*bytes.get(20)?));
    Some(Entry { base, order, word, marks })
}

/// Why no pool gives a list.
#[derive(Clone, Copy, Debug, PartialEq, Eq)]
#[non_exhaustive]
pub enum ListFault {
    /// Cut, or of another tag or length.
    NoEntry,
    /// The order is above 63, or the base is not a multiple of 2^order.
    Run,
    /// The word is neither a value nor a handle, and not 0, the word of a reserved index.
    Word,
    /// Marks above 7.
    Marks,
    /// A reserved index with an order or with marks.
    Reserved,
    /// It does not begin after the end of the entry before it: unsorted, doubled or overlapping.
    Order,
}

impl fmt::Display for ListFault {
    fn fmt(&self, f: &mut fmt::Formatter) -> fmt::Result {
        f.write_str(match self {
            ListFault::NoEntry => "no entry of a list",
            ListFault::Run => "the order is above 63, or the index is not a multiple of 2^order",
            ListFault::Word => "no word that can be stored",
            ListFault::Marks => "marks above 7",
            ListFault::Reserved => "a reserved index with an order or with marks",
            ListFault::Order => "it does not begin after the end of the entry before it",
        })
    }
}

/// An entry that no list of a pool has there, with its place.
#[derive(Clone, Copy, Debug, PartialEq, Eq)]
pub struct BadListed {
    /// The place of its first byte, from 0.
    pub place: usize,
    /// What is wrong with it.
    pub fault: ListFault,
}

impl fmt::Display for BadListed {
    fn fmt(&self, f: &mut fmt::Formatter) -> fmt::Result {
        write!(f, "byte {}: {}", self.place, self.fault)
    }
}

impl std::error::Error for BadListed {}

/// The entries and reserved indices of a range in index order, each once: see
/// [`Pool::list`](crate::Pool::list).
#[derive(Clone, Debug, Default, PartialEq, Eq)]
#[must_use = "an iterator does nothing until it is asked"]
pub struct Listing {
    /// All entries, each good.
    bytes: Vec<u8>,
    /// Where the next one begins.
    place: usize,
}

impl Listing {
    /// A list that was kept. One that no pool can give is refused, at its first entry that is cut, of
    /// another tag or length, crooked (order above 63, base not a multiple of 2^order), with a word that
    /// cannot be stored, with marks above 7, reserved with an order or marks, or that does not begin after
    /// the end of the one before it. Whether it is the list of your pool is another question: keep its
    /// length and its digest. A list that was cut between two entries is read.
    ///
    /// ```
    /// # use xapool_host::{BadListed, Entry, ListFault, Listing, Marks, Word};
    /// let entry = Entry { base: 8, order: 3, word: Word::value(1)?, marks: Marks(0) };
    /// let kept = entry.listed().to_vec();
    /// assert_eq!(Listing::read(kept.clone())?.collect::<Vec<_>>(), [entry]);
    /// let cut = Listing::read(kept[..20].to_vec());
    /// assert_eq!(cut, Err(BadListed { place: 0, fault: ListFault::NoEntry }));
    /// let doubled = Listing::read(kept.repeat(2));
    /// assert_eq!(doubled, Err(BadListed { place: 21, fault: ListFault::Order }));
    /// # Ok::<(), Box<dyn std::error::Error>>(())
    /// ```
    pub fn read(bytes: Vec<u8>) -> Result<Listing, BadListed> {
        // The first index that the next entry may have; none after a run that ends at 2^64 - 1.
        let mut free = Some(0);
        for (number, part) in bytes.chunks(LISTED_BYTES).enumerate() {
            let bad = |fault| BadListed { place: number * LISTED_BYTES, fault };
            let entry = read_entry(part).ok_or(bad(ListFault::NoEntry))?;
            entry.fault().map_or(Ok(()), |fault| Err(bad(fault)))?;
            if free.is_none_or(|free| entry.base < free) {
                return Err(bad(ListFault::Order));
            }
            free = entry.after();
        }
        Ok(Listing { bytes, place: 0 })
    }

    /// The bytes of the whole list, also of the entries that were taken from it.
    #[must_use]
    pub fn bytes(&self) -> &[u8] {
        &self.bytes
    }

    /// The same, to keep.
    #[must_use]
    pub fn into_bytes(self) -> Vec<u8> {
        self.bytes
    }
}

impl Iterator for Listing {
    type Item = Entry;

    fn next(&mut self) -> Option<Entry> {
        let entry = Entry::read_listed(self.bytes.get(self.place..)?)?;
        self.place += LISTED_BYTES;
        Some(entry)
    }

    fn size_hint(&self) -> (usize, Option<usize>) {
        let left = (self.bytes.len() - self.place) / LISTED_BYTES;
        (left, Some(left))
    }
}

impl ExactSizeIterator for Listing {}

impl FusedIterator for Listing {}
