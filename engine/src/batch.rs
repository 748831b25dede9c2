//! Batches: a first pass that judges all records, a second one that reads them as commands.

use crate::limits::MOST_BATCH_BYTES;

#[derive(Clone, Copy, Debug, PartialEq, Eq)]
pub enum Command {
    Store { index: u64, order: u8, word: u64 },
    Load { index: u64 },
    Erase { index: u64 },
    Mark { index: u64, mark: u8 },
    Unmark { index: u64, mark: u8 },
    Find { first: u64, last: u64, filter: u8, budget: u16 },
    Reserve { index: u64 },
}

/// The tag and the length of two bytes.
const HEADER_BYTES: usize = 3;

/// How many commands the batch has, or where its first bad record begins.
pub fn count(batch: &[u8]) -> Result<usize, usize> {
    if batch.len() > MOST_BATCH_BYTES {
        return Err(MOST_BATCH_BYTES);
    }
    let (mut rest, mut commands) = (batch, 0);
    while !rest.is_empty() {
        let size = record_bytes(rest);
        rest = size.and_then(|size| rest.get(size..)).ok_or(batch.len() - rest.len())?;
        commands += 1;
    }
    Ok(commands)
}

/// The size that the record which begins here must have, if its tag and length are good. A branch for
/// each, not a table: so the next record need not wait for this one's tag.
#[inline]
fn record_bytes(bytes: &[u8]) -> Option<usize> {
    let header = bytes.first_chunk::<HEADER_BYTES>()?;
    let fields = match header {
        [1, 0, 17] => 17,
        [2 | 3 | 7, 0, 8] => 8,
        [4 | 5, 0, 9] => 9,
        [6, 0, 19] => 19,
        _ => return None,
    };
    Some(HEADER_BYTES + fields)
}

/// The commands of a batch in order; it ends at a record that `count` does not take.
pub struct Commands<'a> {
    rest: &'a [u8],
}

impl<'a> Commands<'a> {
    pub fn of(batch: &'a [u8]) -> Commands<'a> {
        Commands { rest: batch }
    }
}

impl Iterator for Commands<'_> {
    type Item = Command;

    #[inline]
    fn next(&mut self) -> Option<Command> {
        let ([tag, ..], rest) = self.rest.split_first_chunk::<HEADER_BYTES>()?;
        let mut fields = Fields { rest };
        let command = match *tag {
            1 => Command::Store {
                index: fields.word()?,
                order: fields.byte()?,
                word: fields.word()?,
            },
            2 => Command::Load { index: fields.word()? },
            3 => Command::Erase { index: fields.word()? },
            4 => Command::Mark { index: fields.word()?, mark: fields.byte()? },
            5 => Command::Unmark { index: fields.word()?, mark: fields.byte()? },
            6 => Command::Find {
                first: fields.word()?,
                last: fields.word()?,
                filter: fields.byte()?,
                budget: u16::from_be_bytes(fields.take()?),
            },
            7 => Command::Reserve { index: fields.word()? },
            _ => return None,
        };
        self.rest = fields.rest;
        Some(command)
    }
}

/// The fields of a record, read one after the other.
struct Fields<'a> {
    rest: &'a [u8],
}

impl Fields<'_> {
    #[inline]
    fn take<const SIZE: usize>(&mut self) -> Option<[u8; SIZE]> {
        let (field, rest) = self.rest.split_first_chunk::<SIZE>()?;
        self.rest = rest;
        Some(*field)
    }

    #[inline]
    fn word(&mut self) -> Option<u64> {
        self.take().map(u64::from_be_bytes)
    }

    #[inline]
    fn byte(&mut self) -> Option<u8> {
        self.take().map(u8::from_be_bytes)
    }
}
