//! Written evidence: the text of a region's index in a base sheet or a later supplement.

use crate::raw::{self, RawPart};
use std::error::Error;
use std::fmt;

/// The tag of a record of a sheet.
pub const EVIDENCE_TAG: u8 = 48;

/// The most bytes that the text of a record can have.
pub const MOST_TEXT_BYTES: usize = 65_527;

/// One of the two sheets.
#[derive(Clone, Copy, Debug, PartialEq, Eq, Hash)]
pub enum Sheet {
    /// The base sheet.
    Base,
    /// The supplement, whose records go before those of the base sheet.
    Supplement,
}

impl fmt::Display for Sheet {
    fn fmt(&self, f: &mut fmt::Formatter) -> fmt::Result {
        f.write_str(match self {
            Sheet::Base => "base sheet",
            Sheet::Supplement => "supplement",
        })
    }
}

/// A sheet with a record that is cut off, of another tag than 48, or of a length under 8. Nothing of
/// either sheet is given then, also where the text that was wanted lies before the damage.
#[derive(Clone, Copy, Debug, PartialEq, Eq)]
pub struct MalformedSheet {
    /// Which one; the base sheet, if both are.
    pub sheet: Sheet,
    /// Where its first bad record begins.
    pub place: usize,
}

impl fmt::Display for MalformedSheet {
    fn fmt(&self, f: &mut fmt::Formatter) -> fmt::Result {
        write!(f, "the {} is malformed: no whole record at byte {}", self.sheet, self.place)
    }
}

impl Error for MalformedSheet {}

/// The text of an index, by the proved call: the part of the supplement, or else of the base sheet, that
/// has it, and no copy. `None` is that neither names the index, which is no evidence of anything; a
/// text without bytes is `Some`.
///
/// ```
/// use xapool_host::{evidence, put_evidence};
///
/// let (mut base, mut supplement) = (Vec::new(), Vec::new());
/// put_evidence(&mut base, 7, b"read twice")?;
/// put_evidence(&mut base, 8, b"read once")?;
/// put_evidence(&mut supplement, 8, b"read again")?;
/// assert_eq!(evidence(&base, &supplement, 7)?, Some(&b"read twice"[..]));
/// assert_eq!(evidence(&base, &supplement, 8)?, Some(&b"read again"[..]));
/// assert_eq!(evidence(&base, &supplement, 9)?, None);
///
/// base.pop(); // the last record is cut: nothing of the sheets is given, not of index 7 either
/// assert_eq!(evidence(&base, &supplement, 7).unwrap_err().place, 21);
/// # Ok::<(), Box<dyn std::error::Error>>(())
/// ```
pub fn evidence<'a>(
    base: &'a [u8],
    supplement: &'a [u8],
    index: u64,
) -> Result<Option<&'a [u8]>, MalformedSheet> {
    let RawPart { answer, sheet, place, length } = raw::evidence(base, supplement, index);
    let part = |sheet: &'a [u8]| {
        let (place, length) = (usize::try_from(place).ok()?, usize::try_from(length).ok()?);
        sheet.get(place..place.checked_add(length)?)
    };
    match (answer, sheet) {
        (0, 0) => Ok(part(base)),
        (0, 1) => Ok(part(supplement)),
        (3, _) => Err(malformed(base, supplement)),
        // 10; the library gives no other number.
        _ => Ok(None),
    }
}

/// Which sheet it is, and where: by a walk here, for the message alone.
fn malformed(base: &[u8], supplement: &[u8]) -> MalformedSheet {
    match bad_record(base) {
        Some(place) => MalformedSheet { sheet: Sheet::Base, place },
        None => {
            let place = bad_record(supplement).unwrap_or_default();
            MalformedSheet { sheet: Sheet::Supplement, place }
        }
    }
}

/// Where the first bad record of a sheet begins.
fn bad_record(sheet: &[u8]) -> Option<usize> {
    let mut place = 0;
    while let Some([tag, length @ ..]) = sheet.get(place..).filter(|rest| !rest.is_empty()) {
        let body = length.first_chunk().map(|bytes| usize::from(u16::from_be_bytes(*bytes)));
        match body {
            Some(body) if *tag == EVIDENCE_TAG && (8..=length.len() - 2).contains(&body) => {
                place += 3 + body;
            }
            _ => return Some(place),
        }
    }
    None
}

/// A text that is too long for a record: over [`MOST_TEXT_BYTES`].
#[derive(Clone, Copy, Debug, PartialEq, Eq)]
pub struct TextTooLong;

impl fmt::Display for TextTooLong {
    fn fmt(&self, f: &mut fmt::Formatter) -> fmt::Result {
        write!(f, "a text of evidence has at most {MOST_TEXT_BYTES} bytes")
    }
}

impl Error for TextTooLong {}

/// Puts a record at the end of a sheet. A later one of the same index takes an earlier one's place.
pub fn put_evidence(sheet: &mut Vec<u8>, index: u64, text: &[u8]) -> Result<(), TextTooLong> {
    let length = u16::try_from(text.len() + 8).map_err(|_| TextTooLong)?;
    sheet.push(EVIDENCE_TAG);
    sheet.extend_from_slice(&length.to_be_bytes());
    sheet.extend_from_slice(&index.to_be_bytes());
    sheet.extend_from_slice(text);
    Ok(())
}
