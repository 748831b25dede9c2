//! Batches: built from commands, and read back into them.

use crate::answer::Refusal;
use crate::command::Command;
use crate::raw;
use std::fmt;

/// A batch has at most so many bytes.
pub const MOST_BATCH_BYTES: usize = 32_768;

/// The program tamburish takes no longer batch than this; it is refused as the library refuses one that is
/// too long.
pub const PROGRAM_BATCH_BYTES: usize = 8192;

/// Gathers commands into the bytes of one batch, and refuses what would make it too long;
/// [`Batches`] takes any number.
#[derive(Clone, Debug, Default, PartialEq, Eq)]
pub struct BatchBuilder {
    bytes: Vec<u8>,
    commands: usize,
}

/// The batch has no room for this command: run it, then go on with a new one.
#[derive(Clone, Copy, Debug, PartialEq, Eq)]
pub struct BatchFull(pub Command);

impl fmt::Display for BatchFull {
    fn fmt(&self, f: &mut fmt::Formatter) -> fmt::Result {
        write!(f, "batch is full: no room for '{}'", self.0)
    }
}

impl std::error::Error for BatchFull {}

impl BatchBuilder {
    /// An empty batch.
    #[must_use]
    pub fn new() -> BatchBuilder {
        BatchBuilder::default()
    }

    /// Adds a command at the end.
    pub fn push(&mut self, command: Command) -> Result<(), BatchFull> {
        if self.room() < command.tag().record_bytes() {
            return Err(BatchFull(command));
        }
        command.write(&mut self.bytes);
        self.commands += 1;
        Ok(())
    }

    /// How many bytes may still come.
    #[must_use]
    pub fn room(&self) -> usize {
        MOST_BATCH_BYTES.saturating_sub(self.bytes.len())
    }

    /// The batch as the library takes it.
    #[must_use]
    pub fn bytes(&self) -> &[u8] {
        &self.bytes
    }

    /// How many commands were pushed.
    #[must_use]
    pub fn len(&self) -> usize {
        self.commands
    }

    /// Whether there is no command in it.
    #[must_use]
    pub fn is_empty(&self) -> bool {
        self.commands == 0
    }

    /// Takes all commands out, to begin the next batch.
    pub fn clear(&mut self) {
        self.bytes.clear();
        self.commands = 0;
    }

    /// Its commands in order.
    pub fn commands(&self) -> Commands<'_> {
        Commands::of(&self.bytes)
    }
}

/// The commands of a batch in order, or the place of the first bad record; then it ends.
#[derive(Clone, Debug)]
#[must_use = "an iterator does nothing until it is asked"]
pub struct Commands<'a> {
    bytes: &'a [u8],
    place: usize,
}

/// A record that is cut, of unknown tag or of wrong length, with the place of its first byte.
#[derive(Clone, Copy, Debug, PartialEq, Eq)]
pub struct BadBatch {
    /// The place of its first byte, from 0.
    pub place: usize,
}

impl fmt::Display for BadBatch {
    fn fmt(&self, f: &mut fmt::Formatter) -> fmt::Result {
        write!(f, "byte {}: a record is cut, of unknown tag or of wrong length", self.place)
    }
}

impl std::error::Error for BadBatch {}

impl<'a> Commands<'a> {
    /// Reads any bytes, also more than a batch may have.
    pub fn of(bytes: &'a [u8]) -> Commands<'a> {
        Commands { bytes, place: 0 }
    }

    /// The bytes not yet read.
    #[must_use]
    pub fn rest(&self) -> &'a [u8] {
        self.bytes.get(self.place..).unwrap_or_default()
    }
}

impl Iterator for Commands<'_> {
    type Item = Result<Command, BadBatch>;

    fn next(&mut self) -> Option<Self::Item> {
        let rest = self.rest();
        if rest.is_empty() {
            return None;
        }
        let place = self.place;
        match Command::read(rest) {
            Some(command) => {
                self.place += command.tag().record_bytes();
                Some(Ok(command))
            }
            None => {
                self.place = self.bytes.len();
                Some(Err(BadBatch { place }))
            }
        }
    }
}

/// Cuts a row of records of any length, between records, into batches that are each as long as may
/// be. One batch, whatever its bytes are, is left as it is for the library to judge; in a longer row
/// the first bad record is a refusal.
pub fn split_batches(records: &[u8]) -> Result<Vec<&[u8]>, Refusal> {
    if records.len() <= MOST_BATCH_BYTES {
        return Ok(vec![records]);
    }
    let (mut batches, mut start, mut end) = (Vec::new(), 0, 0);
    for command in Commands::of(records) {
        let command = command.map_err(|bad| Refusal::BadBatch { place: bad.place as u64 })?;
        let next = end + command.tag().record_bytes();
        if next - start > MOST_BATCH_BYTES {
            batches.push(&records[start..end]);
            start = end;
        }
        end = next;
    }
    batches.push(&records[start..]);
    Ok(batches)
}

/// Any number of commands, in batches that are each as long as may be.
#[derive(Clone, Debug, Default, PartialEq, Eq)]
pub struct Batches {
    batches: Vec<BatchBuilder>,
}

impl Batches {
    /// The batches in order.
    pub fn iter(&self) -> std::slice::Iter<'_, BatchBuilder> {
        self.batches.iter()
    }

    /// How many batches there are.
    #[must_use]
    pub fn len(&self) -> usize {
        self.batches.len()
    }

    /// Whether there is no command at all.
    #[must_use]
    pub fn is_empty(&self) -> bool {
        self.batches.is_empty()
    }
}

impl Extend<Command> for Batches {
    fn extend<T: IntoIterator<Item = Command>>(&mut self, commands: T) {
        for command in commands {
            let pushed = self.batches.last_mut().is_some_and(|last| last.push(command).is_ok());
            if !pushed {
                let mut batch = BatchBuilder::new();
                // An empty batch has room for any command.
                let _ = batch.push(command);
                self.batches.push(batch);
            }
        }
    }
}

impl FromIterator<Command> for Batches {
    fn from_iter<T: IntoIterator<Item = Command>>(commands: T) -> Batches {
        let mut batches = Batches::default();
        batches.extend(commands);
        batches
    }
}

impl<'a> IntoIterator for &'a Batches {
    type Item = &'a BatchBuilder;
    type IntoIter = std::slice::Iter<'a, BatchBuilder>;

    fn into_iter(self) -> Self::IntoIter {
        self.iter()
    }
}

/// How many commands the bytes of a batch have, or why a run would refuse them.
pub fn count_commands(bytes: &[u8]) -> Result<u64, Refusal> {
    Refusal::unless_done(raw::count(bytes))
}
