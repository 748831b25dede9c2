//! Bytes that are read in pieces, of which there is always a whole record at hand.

use std::io::{self, ErrorKind, Read};

/// The longest record, a reply, has so many bytes.
pub const LONGEST_RECORD: usize = 24;
const PIECE: usize = 1 << 18;

/// A piece of what is read, and where the next record begins in it.
#[derive(Debug)]
pub struct Window<R> {
    input: R,
    bytes: Vec<u8>,
    start: usize,
    ended: bool,
}

impl<R: Read> Window<R> {
    pub fn of(input: R) -> Window<R> {
        Window { input, bytes: Vec::new(), start: 0, ended: false }
    }

    /// What comes next: a longest record's bytes or more, or all that are left.
    pub fn rest(&mut self) -> io::Result<&[u8]> {
        while self.bytes.len() - self.start < LONGEST_RECORD && !self.ended {
            self.read_on()?;
        }
        Ok(&self.bytes[self.start..])
    }

    /// So many of these bytes were used.
    pub fn pass(&mut self, count: usize) {
        self.start = self.bytes.len().min(self.start + count);
    }

    /// All that is left.
    pub fn read_all(&mut self) -> io::Result<Vec<u8>> {
        let mut all = self.bytes.split_off(self.start);
        self.input.read_to_end(&mut all)?;
        (self.bytes, self.start, self.ended) = (Vec::new(), 0, true);
        Ok(all)
    }

    pub fn input(&self) -> &R {
        &self.input
    }

    fn read_on(&mut self) -> io::Result<()> {
        self.bytes.drain(..self.start);
        self.start = 0;
        let kept = self.bytes.len();
        self.bytes.resize(kept + PIECE, 0);
        let read = self.input.read(&mut self.bytes[kept..]);
        self.bytes.truncate(kept + *read.as_ref().unwrap_or(&0));
        match read {
            Ok(count) => self.ended = count == 0,
            Err(error) if error.kind() == ErrorKind::Interrupted => {}
            Err(error) => return Err(error),
        }
        Ok(())
    }
}
