//! The look-up of a region's written evidence in a base sheet and a supplement (request P13).

use crate::answers::{ABSENT, BAD_BATCH, DONE};
use std::ops::Range;

/// The tag of a record.
pub const EVIDENCE_TAG: u8 = 48;
/// Tag and length, before the index.
pub const HEAD_BYTES: usize = 3;
pub const INDEX_BYTES: usize = 8;

/// Which of the two has the text.
#[derive(Clone, Copy, Debug, PartialEq, Eq)]
pub enum Sheet {
    Base,
    Supplement,
}

/// What a look-up gives: the part only with answer 0.
#[derive(Clone, Debug, PartialEq, Eq)]
pub struct Found {
    pub answer: u8,
    pub part: Option<(Sheet, Range<usize>)>,
}

/// A record: the index that it names, and where its text stands in the sheet.
#[derive(Clone, Debug, PartialEq, Eq)]
pub struct Record {
    pub index: u64,
    pub text: Range<usize>,
}

/// All records of a sheet in their order, or none of them if any is cut, of another tag or too short.
pub fn records(sheet: &[u8]) -> Option<Vec<Record>> {
    let mut records = Vec::new();
    let mut rest = sheet;
    while let [tag, more @ ..] = rest {
        let (length, fields) = more.split_at_checked(2)?;
        let length = usize::from(length[0]) * 256 + usize::from(length[1]);
        let (fields, after) = fields.split_at_checked(length)?;
        if *tag != EVIDENCE_TAG {
            return None;
        }
        let (index, text) = fields.split_at_checked(INDEX_BYTES)?;
        let index = index.iter().fold(0, |index, byte| index * 256 + u64::from(*byte));
        let end = sheet.len() - after.len();
        records.push(Record { index, text: end - text.len()..end });
        rest = after;
    }
    Some(records)
}

/// The look-up: the supplement's last record of this index, else the base sheet's.
pub fn look_up(base: &[u8], supplement: &[u8], index: u64) -> Found {
    let (Some(base), Some(supplement)) = (records(base), records(supplement)) else {
        return Found { answer: BAD_BATCH, part: None };
    };
    let last = |records: Vec<Record>| records.into_iter().rfind(|record| record.index == index);
    let of = |sheet| move |record: Record| (sheet, record.text);
    let part = last(supplement).map(of(Sheet::Supplement)).or(last(base).map(of(Sheet::Base)));
    Found { answer: if part.is_some() { DONE } else { ABSENT }, part }
}
