//! The list of entries and reservations (document 01: the plain list) and the rules for them.

/// One past the last index; it does not fit 64 bits.
pub const INDEX_END: u128 = 1 << 64;

/// The indices from `start` up to but not including `end`.
#[derive(Clone, Copy, Debug, PartialEq, Eq)]
pub struct Range {
    pub start: u128,
    pub end: u128,
}

impl Range {
    pub fn holds(self, index: u64) -> bool {
        self.start <= u128::from(index) && u128::from(index) < self.end
    }

    pub fn meets(self, other: Range) -> bool {
        self.start < other.end && other.start < self.end
    }

    pub fn is_within(self, other: Range) -> bool {
        other.start <= self.start && self.end <= other.end
    }
}

/// The word of a reservation (request P6): XArray's zero entry, the internal word of 257. No store can
/// carry it.
pub const RESERVED: u64 = 4 * 257 + 2;

/// An entry and the run it covers: 2^order indices from base. Mark m is worth 2^m in `marks`. A
/// reservation is in the list as one too: with order 0, the word 1,030 and no marks.
#[derive(Clone, Copy, Debug, PartialEq, Eq)]
pub struct Entry {
    pub base: u64,
    pub order: u8,
    pub word: u64,
    pub marks: u8,
}

impl Entry {
    pub fn range(self) -> Range {
        let start = u128::from(self.base);
        Range { start, end: start + (1 << self.order) }
    }

    /// The reservation of an index.
    pub fn reservation(index: u64) -> Entry {
        Entry { base: index, order: 0, word: RESERVED, marks: 0 }
    }

    pub fn is_reservation(self) -> bool {
        self.word == RESERVED
    }
}

/// An entry's word is odd, or a multiple of 4 and not 0.
pub fn is_entry_word(word: u64) -> bool {
    word % 2 == 1 || (word.is_multiple_of(4) && word > 0)
}

/// Whether an entry of this order, 0 to 63, can begin at the index.
pub fn is_aligned(index: u64, order: u8) -> bool {
    index.is_multiple_of(1 << order)
}

/// The entry or reservation that covers the index. The list is in index order, so it is the last to
/// begin there or before, or none.
pub fn covering(list: &[Entry], index: u64) -> Option<Entry> {
    let begun = list.partition_point(|entry| entry.base <= index);
    let last = list[..begun].last()?;
    last.range().holds(index).then_some(*last)
}

/// The entry that covers the index; a reservation is none.
pub fn entry_covering(list: &[Entry], index: u64) -> Option<Entry> {
    covering(list, index).filter(|entry| !entry.is_reservation())
}

/// The marks that any of the entries has.
pub fn marks_of(entries: &[Entry]) -> u8 {
    entries.iter().fold(0, |marks, entry| marks | entry.marks)
}

/// The part of the list that begins in the range.
pub fn beginning_in(list: &[Entry], range: Range) -> &[Entry] {
    let from = list.partition_point(|entry| u128::from(entry.base) < range.start);
    let to = list.partition_point(|entry| u128::from(entry.base) < range.end);
    &list[from..to]
}

/// Base and order of the entry that a store at an aligned index leaves (document 01: the addressed
/// run): those of an entry of this order or more that covers the asked run, else the asked run's own.
pub fn target(list: &[Entry], index: u64, order: u8) -> (u64, u8) {
    match covering(list, index) {
        Some(entry) if entry.order >= order => (entry.base, entry.order),
        _ => (index, order),
    }
}

/// The marks that a store hands on. Mark 2 says that an entry was compared, and its new word never
/// was (request P5).
const HANDED_ON: u8 = 0b011;

/// The list after a store: what lies in the target range goes, one entry with its marks comes, but
/// for mark 2.
pub fn store(list: &[Entry], index: u64, order: u8, word: u64) -> Vec<Entry> {
    let (base, order) = target(list, index, order);
    let mut new = Entry { base, order, word, marks: 0 };
    let (gone, mut kept): (Vec<Entry>, Vec<Entry>) =
        list.iter().partition(|entry| entry.range().is_within(new.range()));
    new.marks = marks_of(&gone) & HANDED_ON;
    kept.push(new);
    kept.sort_by_key(|entry| entry.base);
    kept
}

/// The list with a reservation of an index that nothing covers.
pub fn reserve(list: &[Entry], index: u64) -> Vec<Entry> {
    let mut list = list.to_vec();
    list.push(Entry::reservation(index));
    list.sort_by_key(|entry| entry.base);
    list
}

/// The list without what covers the index.
pub fn erase(list: &[Entry], index: u64) -> Vec<Entry> {
    list.iter().copied().filter(|entry| !entry.range().holds(index)).collect()
}

/// The list with the mark set on the entry that covers the index.
pub fn mark(list: &[Entry], index: u64, mark: u8) -> Vec<Entry> {
    with_marks(list, index, |marks| marks | (1 << mark))
}

/// The list with the mark cleared on the entry that covers the index.
pub fn unmark(list: &[Entry], index: u64, mark: u8) -> Vec<Entry> {
    with_marks(list, index, |marks| marks & !(1 << mark))
}

fn with_marks(list: &[Entry], index: u64, change: impl Fn(u8) -> u8) -> Vec<Entry> {
    let mut list = list.to_vec();
    for entry in &mut list {
        if entry.range().holds(index) {
            entry.marks = change(entry.marks);
        }
    }
    list
}
