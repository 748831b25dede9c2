//! The listing (request P1): the entries and reservations that a range of indices meets, as bytes.

use crate::model::{Entry, Range};

/// The bytes of one listed entry.
pub const LISTED_BYTES: usize = 21;

const LISTED_TAG: u8 = 32;
const LISTED_FIELDS: u16 = 18;

/// The entries and reservations whose run has an index from first to last, in index order.
pub fn listed(list: &[Entry], first: u64, last: u64) -> Vec<Entry> {
    let asked = Range { start: u128::from(first), end: u128::from(last) + 1 };
    list.iter().copied().filter(|entry| entry.range().meets(asked)).collect()
}

/// One listed entry: tag and length, then base, order, word and marks. The word of a reservation is
/// the pool's own affair: it is listed as 0.
pub fn listed_bytes(entry: Entry) -> [u8; LISTED_BYTES] {
    let word = if entry.is_reservation() { 0 } else { entry.word };
    let mut bytes = [0; LISTED_BYTES];
    bytes[0] = LISTED_TAG;
    bytes[1..3].copy_from_slice(&LISTED_FIELDS.to_be_bytes());
    bytes[3..11].copy_from_slice(&entry.base.to_be_bytes());
    bytes[11] = entry.order;
    bytes[12..20].copy_from_slice(&word.to_be_bytes());
    bytes[20] = entry.marks;
    bytes
}

/// The whole listing.
pub fn listing(list: &[Entry], first: u64, last: u64) -> Vec<u8> {
    listed(list, first, last).into_iter().flat_map(listed_bytes).collect()
}
