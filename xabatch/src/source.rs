//! A file that is read in pieces, from its start to its end, and must not change meanwhile.

use crate::os;
use std::ffi::{OsStr, OsString};
use std::fs::{self, File, Metadata};
use std::io::{self, ErrorKind, Read, Seek, SeekFrom};
use std::os::fd::AsFd;
use std::os::unix::fs::{FileTypeExt, MetadataExt};
use std::thread;
use std::time::{Duration, SystemTime};

/// So many bytes are read at once.
pub const PIECE: usize = 1 << 20;

/// Times of files are those of the kernel's clock tick, and on some file systems of whole seconds, or of
/// two: a second change within one of these would have the time of the first.
const TICK: Duration = Duration::from_millis(25);
const SECONDS: Duration = Duration::from_millis(2100);

pub struct Source {
    file: File,
    /// None of standard input.
    name: Option<OsString>,
    before: Metadata,
    /// The bytes that it must have, where that is known before they are read.
    length: Option<u64>,
    /// Whether there is no data in it at all, but holes. What is read of a hole may count as data
    /// afterwards, so this is asked before.
    holes_alone: bool,
    read: u64,
}

/// What tells one file from another, and one state of it from another. The time of the last read is
/// no part of it.
#[derive(Debug, PartialEq, Eq)]
struct State {
    identity: (u64, u64),
    length: u64,
    modified: (i64, i64),
    changed: (i64, i64),
}

impl State {
    fn of(data: &Metadata) -> State {
        State {
            identity: identity(data),
            length: data.len(),
            modified: (data.mtime(), data.mtime_nsec()),
            changed: (data.ctime(), data.ctime_nsec()),
        }
    }
}

fn identity(data: &Metadata) -> (u64, u64) {
    (data.dev(), data.ino())
}

/// Whether its state tells a change: that of a pipe or a terminal changes with what is read.
fn is_held(data: &Metadata) -> bool {
    data.is_file() || data.file_type().is_block_device()
}

impl Source {
    /// `-` is standard input, from where it stands.
    pub fn open(name: &OsStr) -> io::Result<Source> {
        Source::open_after(name, |file| file.metadata())
    }

    /// The same, once a change while it is read has a time of its own. What was written through a
    /// mapping before is flushed, so that a further write there is a new one to the file system; and
    /// what is then called a match is on disk.
    pub fn open_still(name: &OsStr) -> io::Result<Source> {
        Source::open_after(name, still)
    }

    fn open_after(
        name: &OsStr,
        look: impl Fn(&File) -> io::Result<Metadata>,
    ) -> io::Result<Source> {
        if name == "-" {
            if os::was_closed(0) {
                return Err(io::Error::other("it is closed"));
            }
            let file = File::from(io::stdin().as_fd().try_clone_to_owned()?);
            return Source::of(None, None, look(&file)?, file);
        }
        let mut file = File::open(name)?;
        let before = look(&file)?;
        let length = length(&mut file, &before)?;
        Source::of(Some(name.to_owned()), length, before, file)
    }

    fn of(
        name: Option<OsString>,
        length: Option<u64>,
        before: Metadata,
        mut file: File,
    ) -> io::Result<Source> {
        let has_bytes = before.is_file() && before.len() > 0;
        let holes_alone = has_bytes && (before.blocks() == 0 || is_holes_alone(&mut file)?);
        Ok(Source { file, name, before, length, holes_alone, read: 0 })
    }

    /// The bytes that it has, where that is known.
    pub fn length(&self) -> Option<u64> {
        self.length
    }

    /// Whether both read one file, by whatever names; or one device, which may have several files.
    pub fn is_same(&self, other: &Source) -> bool {
        let (one, two) = (&self.before, &other.before);
        let is_device = one.file_type().is_block_device() || one.file_type().is_char_device();
        let one_device = one.file_type() == two.file_type() && one.rdev() == two.rdev();
        let one_file = !one.is_dir() && identity(one) == identity(two);
        one_file || is_device && one_device
    }

    /// Whether there is no data in it at all, but holes.
    pub fn is_holes_alone(&self) -> bool {
        self.holes_alone
    }

    /// Fills the piece, or as much of it as there is left; gives how many bytes. What comes through a
    /// pipe comes in small parts, so a read that gives less is not the end.
    pub fn fill(&mut self, piece: &mut [u8]) -> io::Result<usize> {
        let mut filled = 0;
        while filled < piece.len() {
            match self.read(&mut piece[filled..]) {
                Ok(0) => break,
                Ok(bytes) => filled += bytes,
                Err(error) if error.kind() == ErrorKind::Interrupted => {}
                Err(error) => return Err(error),
            }
        }
        Ok(filled)
    }

    /// To be asked at the end: what was read is a file as it was at one time, and its name still leads
    /// to it.
    pub fn is_unchanged(&self) -> io::Result<()> {
        let file = is_as_before(&self.before, &self.file.metadata()?);
        let name = match &self.name {
            None => true,
            Some(name) => match fs::metadata(name) {
                Ok(there) => is_as_before(&self.before, &there),
                Err(error) if error.kind() == ErrorKind::NotFound => false,
                Err(error) => return Err(error),
            },
        };
        let length = self.length.is_none_or(|length| length == self.read);
        if file && name && length {
            return Ok(());
        }
        Err(changed())
    }
}

impl Read for Source {
    fn read(&mut self, piece: &mut [u8]) -> io::Result<usize> {
        let read = self.file.read(piece)?;
        self.read += read as u64;
        Ok(read)
    }
}

fn is_as_before(before: &Metadata, after: &Metadata) -> bool {
    match is_held(before) {
        true => State::of(before) == State::of(after),
        false => identity(before) == identity(after),
    }
}

fn changed() -> io::Error {
    io::Error::other("it changed while it was read: what it holds is not known")
}

/// Leaves the file where it stood.
fn is_holes_alone(file: &mut File) -> io::Result<bool> {
    let place = file.stream_position()?;
    let alone = os::is_holes_alone(file);
    file.seek(SeekFrom::Start(place))?;
    Ok(alone)
}

/// What is known of a file that is flushed and was left alone for a tick.
fn still(file: &File) -> io::Result<Metadata> {
    let first = file.metadata()?;
    if !is_held(&first) {
        return Ok(first);
    }
    flush(file)?;
    let before = file.metadata()?;
    if let Some(left) = too_new_for(&before) {
        thread::sleep(left);
    }
    let after = file.metadata()?;
    if State::of(&before) != State::of(&after) {
        return Err(changed());
    }
    Ok(after)
}

/// A file that cannot be flushed, as on a disk that is only read, has nothing to flush.
fn flush(file: &File) -> io::Result<()> {
    let nothing = [ErrorKind::InvalidInput, ErrorKind::ReadOnlyFilesystem, ErrorKind::Unsupported];
    match file.sync_all() {
        Err(error) if !nothing.contains(&error.kind()) => {
            Err(io::Error::new(error.kind(), format!("it cannot be flushed: {error}")))
        }
        _ => Ok(()),
    }
}

/// How long until the next change has another time than the last one.
fn too_new_for(data: &Metadata) -> Option<Duration> {
    let since = Duration::new(data.ctime().try_into().ok()?, data.ctime_nsec().try_into().ok()?);
    let age = SystemTime::now().duration_since(SystemTime::UNIX_EPOCH + since).ok()?;
    let step = if data.ctime_nsec() == 0 { SECONDS } else { TICK };
    step.checked_sub(age)
}

/// The length of a file or of a disk; nothing is known of a pipe.
fn length(file: &mut File, data: &Metadata) -> io::Result<Option<u64>> {
    if data.is_file() {
        return Ok(Some(data.len()));
    }
    if !data.file_type().is_block_device() {
        return Ok(None);
    }
    let length = file.seek(SeekFrom::End(0))?;
    file.rewind()?;
    Ok(Some(length))
}
