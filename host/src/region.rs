//! Regions of bytes: their digest, and whether an old and a new one match.

use crate::raw;
use std::fmt;

/// A digest CRC-32C (RFC 3720) in the making. That of no bytes is 0, as is that of some others: two
/// digests that are equal say nothing of regions that may be empty. [`compare`] knows about that.
///
/// ```
/// use xapool_host::Crc32c;
///
/// let mut digest = Crc32c::new();
/// digest.update(b"1234");
/// digest.update(b"56789");
/// assert_eq!(digest.value(), 0xe306_9283);
/// assert_eq!(digest, Crc32c::of(b"123456789"));
/// assert_eq!(digest.to_string(), "e3069283");
/// ```
#[derive(Clone, Copy, Debug, Default, PartialEq, Eq, Hash)]
pub struct Crc32c(u32);

impl Crc32c {
    /// Of no bytes yet.
    #[must_use]
    pub fn new() -> Crc32c {
        Crc32c::default()
    }

    /// Of a region as a whole.
    #[must_use]
    pub fn of(region: &[u8]) -> Crc32c {
        Crc32c(raw::crc32c(0, region))
    }

    /// One that was kept as its number.
    #[must_use]
    pub fn from_value(value: u32) -> Crc32c {
        Crc32c(value)
    }

    /// Goes on with the next piece.
    pub fn update(&mut self, piece: &[u8]) {
        self.0 = raw::crc32c(self.0, piece);
    }

    /// The digest of all pieces so far.
    #[must_use]
    pub fn value(self) -> u32 {
        self.0
    }
}

/// In eight hex digits.
impl fmt::Display for Crc32c {
    fn fmt(&self, f: &mut fmt::Formatter) -> fmt::Result {
        write!(f, "{:08x}", self.0)
    }
}

/// How an old and a new region compare. This is of the verdict's own word: where no comparison wrote it,
/// as in memory of zeros or by default, it reads as nothing to compare. Of the regions' bytes it says
/// nothing: two regions of zeros that were read, of one length above 0, match.
#[derive(Clone, Copy, Debug, Default, PartialEq, Eq, Hash)]
#[repr(u64)]
#[must_use = "only Matched says that the old region may go"]
pub enum Verdict {
    /// A region is empty. Never a match, though both digests may be 0.
    #[default]
    NothingToCompare = 0,
    /// Both are longer than 0, of one length, with the same bytes.
    Matched = 1,
    /// Neither is empty, and a length or a byte differs.
    Different = 2,
}

impl Verdict {
    /// The verdict of this number. One that the library never gives is no match.
    fn from_number(number: u64) -> Verdict {
        match number {
            1 => Verdict::Matched,
            2 => Verdict::Different,
            _ => Verdict::NothingToCompare,
        }
    }
}

impl fmt::Display for Verdict {
    fn fmt(&self, f: &mut fmt::Formatter) -> fmt::Result {
        f.write_str(match self {
            Verdict::NothingToCompare => "nothing to compare",
            Verdict::Matched => "matched",
            Verdict::Different => "different",
        })
    }
}

/// A verdict, and the digests for a report.
#[derive(Clone, Copy, Debug, Default, PartialEq, Eq)]
#[must_use = "only Matched says that the old region may go"]
pub struct Comparison {
    /// What to act on.
    pub verdict: Verdict,
    /// Of the old region.
    pub old: Crc32c,
    /// Of the new region.
    pub new: Crc32c,
}

/// Compares an old and a new region, by the proved call.
///
/// ```
/// use xapool_host::{compare, Verdict};
///
/// assert_eq!(compare(b"page", b"page").verdict, Verdict::Matched);
/// assert_eq!(compare(b"page", b"pagE").verdict, Verdict::Different);
/// let nothing = compare(b"", b"");
/// assert_eq!(nothing.old, nothing.new); // and still no match
/// assert_eq!(nothing.verdict, Verdict::NothingToCompare);
/// assert_eq!(compare(&[0; 4096], &[0; 4096]).verdict, Verdict::Matched); // zeros that were read
/// ```
pub fn compare(old: &[u8], new: &[u8]) -> Comparison {
    let raw::RawComparison { verdict, old_crc, new_crc } = raw::compare(old, new);
    match (u32::try_from(old_crc), u32::try_from(new_crc)) {
        (Ok(old), Ok(new)) => Comparison {
            verdict: Verdict::from_number(verdict),
            old: Crc32c(old),
            new: Crc32c(new),
        },
        // The library never gives such digests: no match.
        _ => Comparison::default(),
    }
}

/// A comparison in pieces, for regions larger than memory. The pieces are put side by side here and
/// not by the proved call, which gives the digests; what it finds is what [`compare`] would.
///
/// ```
/// use xapool_host::{Pieces, Verdict};
///
/// let mut pieces = Pieces::new();
/// pieces.take(b"some", b"some");
/// assert_eq!(pieces.comparison().verdict, Verdict::Matched);
/// pieces.take(b"thing", b"time");
/// assert_eq!(pieces.comparison().verdict, Verdict::Different);
/// assert_eq!((pieces.first_difference(), pieces.bytes()), (Some(5), (9, 8)));
/// ```
#[derive(Clone, Copy, Debug, Default)]
#[must_use]
pub struct Pieces {
    old: (u64, Crc32c),
    new: (u64, Crc32c),
    first_difference: Option<u64>,
}

impl Pieces {
    /// Of two regions of which nothing was read yet.
    pub fn new() -> Pieces {
        Pieces::default()
    }

    /// The next piece of each. They have one length until a region ends: pieces after that are of
    /// regions that differ, whatever they hold.
    pub fn take(&mut self, old: &[u8], new: &[u8]) {
        if self.first_difference.is_none() && old != new {
            let same = old.iter().zip(new).take_while(|(old, new)| old == new).count();
            self.first_difference = Some(self.old.0 + same as u64);
        }
        for ((bytes, digest), piece) in [(&mut self.old, old), (&mut self.new, new)] {
            *bytes += piece.len() as u64;
            digest.update(piece);
        }
    }

    /// How the pieces so far compare.
    pub fn comparison(self) -> Comparison {
        let verdict = match (self.bytes(), self.first_difference) {
            ((0, _) | (_, 0), _) => Verdict::NothingToCompare,
            (_, Some(_)) => Verdict::Different,
            _ => Verdict::Matched,
        };
        Comparison { verdict, old: self.old.1, new: self.new.1 }
    }

    /// The place of the first byte, from 0, that one region has and the other has not so.
    #[must_use]
    pub fn first_difference(self) -> Option<u64> {
        self.first_difference
    }

    /// The bytes of both regions so far.
    #[must_use]
    pub fn bytes(self) -> (u64, u64) {
        (self.old.0, self.new.0)
    }
}
