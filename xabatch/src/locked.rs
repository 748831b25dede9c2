//! A file that is read, changed and replaced as one step, so that nothing of it is lost.
//!
//! The lock is on the file itself, from before it is read until its successor, locked too, has its
//! name and is surely on disk. Who waited may hold the lock of a file that was replaced in the
//! meantime; it then looks at the path again, so that whoever goes on has locked the file that is
//! there.
//!
//! The successor is written beside it, flushed to disk and renamed, and then the folder is flushed.
//! A process that ends at any point leaves the old file or the new one, whole, at the path; what it
//! may leave beside it is removed by the next one. Where the file stays, it and the folder are
//! flushed all the same: who put it there may have ended between the rename and the flush.

use crate::attributes;
use crate::beside::{folder_of, is_unlocked, remove_left_over, Temporary};
use std::fmt;
use std::fs::{self, File, Metadata, OpenOptions, Permissions, TryLockError};
use std::io::{self, Read, Write};
use std::os::unix::fs::{fchown, MetadataExt, PermissionsExt};
use std::path::{Path, PathBuf};

const EEXIST: i32 = 17;

/// What to do where another process has the lock.
#[derive(Clone, Copy, Debug, PartialEq, Eq)]
pub enum Locking {
    /// Wait until it is free.
    Wait,
    /// Give the error `WouldBlock`.
    Refuse,
}

/// A file that this process alone may replace, until it is dropped.
#[derive(Debug)]
pub struct LockedFile {
    file: File,
    /// Where the file itself stands: no symbolic link.
    path: PathBuf,
    /// Why it cannot be written, if so.
    read_only: Option<io::Error>,
}

/// Why a file was not written, or not surely.
#[derive(Debug)]
pub struct KeepError {
    error: io::Error,
    /// What stands at the path now.
    left: &'static str,
    /// It is a flush that failed.
    flush: bool,
}

const AS_IT_WAS: &str = "the file is as it was";
const NOT_SURE: &str = "the file is as it was, but a power cut may take what was stored before";
const REPLACED: &str = "the file is replaced, but a power cut may undo that";
const NOTHING: &str = "nothing is written";
const THERE: &str = "the file is there, but a power cut may take it";

impl KeepError {
    /// For `map_err`.
    fn of(left: &'static str) -> impl Fn(io::Error) -> KeepError {
        move |error| KeepError { error, left, flush: false }
    }

    fn of_flush(left: &'static str) -> impl Fn(io::Error) -> KeepError {
        move |error| KeepError { error, left, flush: true }
    }

    /// Whether it is a flush that failed.
    #[must_use]
    pub fn is_of_flush(&self) -> bool {
        self.flush
    }
}

impl fmt::Display for KeepError {
    fn fmt(&self, f: &mut fmt::Formatter) -> fmt::Result {
        let flush = if self.flush { "flush to disk: " } else { "" };
        write!(f, "{flush}{}; {}", self.error, self.left)
    }
}

impl std::error::Error for KeepError {}

impl LockedFile {
    /// Locks the file at this path, through symbolic links.
    pub fn open(name: &Path, locking: Locking) -> io::Result<LockedFile> {
        loop {
            let path = fs::canonicalize(name)?;
            if !fs::metadata(&path)?.is_file() {
                return Err(io::Error::new(io::ErrorKind::InvalidInput, "not a regular file"));
            }
            let (file, read_only) = open_file(&path)?;
            lock(&file, locking)?;
            if is_at(&file, name)? {
                return Ok(LockedFile { file, path, read_only });
            }
        }
    }

    /// All bytes of the file; none if they are more than this.
    pub fn read(&mut self, most: u64) -> io::Result<Option<Vec<u8>>> {
        read_at_most(&self.file, most)
    }

    /// Flushes the file as it is, and its folder; then the lock is free.
    pub fn flush(self) -> Result<(), KeepError> {
        let failed = KeepError::of_flush(NOT_SURE);
        self.file.sync_all().map_err(&failed)?;
        let folder = folder_of(&self.path).and_then(File::open);
        folder.and_then(|folder| folder.sync_all()).map_err(&failed)
    }

    /// Puts a file of these bytes in its place, with its owner, mode and extended attributes; then
    /// the lock is free.
    pub fn replace(mut self, bytes: &[u8]) -> Result<(), KeepError> {
        // Opened before anything is changed: it must not be this that fails afterwards.
        let folder = folder_of(&self.path).and_then(File::open);
        let folder = folder.map_err(KeepError::of_flush(AS_IT_WAS))?;
        let new = self.write_new(bytes).map_err(KeepError::of(AS_IT_WAS))?;
        new.file.sync_all().map_err(KeepError::of_flush(AS_IT_WAS))?;
        // Locked until the end: nobody reads what is not surely on disk.
        let _new = self.rename(new).map_err(KeepError::of(AS_IT_WAS))?;
        folder.sync_all().map_err(KeepError::of_flush(REPLACED))
    }

    fn write_new(&mut self, bytes: &[u8]) -> io::Result<Temporary> {
        if let Some(error) = self.read_only.take() {
            return Err(error);
        }
        // None is in use, for the lock is ours.
        remove_left_over(&self.path, |_| true)?;
        let mut new = Temporary::beside(&self.path, 0o600)?;
        lock(&new.file, Locking::Wait)?;
        new.file.write_all(bytes)?;
        self.keep_owner_and_rights(&new.file)?;
        Ok(new)
    }

    /// The owner first, for a change of it takes rights away; the mode last, for it is above what an
    /// access control list gives.
    fn keep_owner_and_rights(&self, new: &File) -> io::Result<()> {
        let (old, made) = (self.file.metadata()?, new.metadata()?);
        if (made.uid(), made.gid()) != (old.uid(), old.gid()) {
            fchown(new, Some(old.uid()), Some(old.gid())).map_err(|error| {
                io::Error::new(error.kind(), format!("its owner cannot be kept: {error}"))
            })?;
        }
        attributes::keep(&self.file, new)?;
        new.set_permissions(Permissions::from_mode(old.mode() & 0o7777))
    }

    fn rename(&self, new: Temporary) -> io::Result<File> {
        if !is_at(&self.file, &self.path)? {
            let message = "another program put another file in its place meanwhile";
            return Err(io::Error::other(message));
        }
        new.rename(&self.path)
    }
}

/// All bytes; none if they are more than this, which a file's length tells before it is read.
pub fn read_at_most(file: &File, most: u64) -> io::Result<Option<Vec<u8>>> {
    let data = file.metadata()?;
    if data.is_file() && data.len() > most {
        return Ok(None);
    }
    let mut bytes = Vec::new();
    file.take(most.saturating_add(1)).read_to_end(&mut bytes)?;
    Ok((bytes.len() as u64 <= most).then_some(bytes))
}

/// The file, for writing where that may be: who takes a file's permission to be written away does
/// not want it replaced either. For loads and finds it is opened all the same.
fn open_file(path: &Path) -> io::Result<(File, Option<io::Error>)> {
    match OpenOptions::new().read(true).write(true).open(path) {
        Ok(file) => Ok((file, None)),
        Err(error) if is_denied(&error) => Ok((File::open(path)?, Some(error))),
        Err(error) => Err(error),
    }
}

fn is_denied(error: &io::Error) -> bool {
    matches!(error.kind(), io::ErrorKind::PermissionDenied | io::ErrorKind::ReadOnlyFilesystem)
}

fn lock(file: &File, locking: Locking) -> io::Result<()> {
    if locking == Locking::Refuse {
        return file.try_lock().map_err(|error| match error {
            TryLockError::WouldBlock => {
                io::Error::new(io::ErrorKind::WouldBlock, "another run has it locked")
            }
            TryLockError::Error(error) => error,
        });
    }
    loop {
        match file.lock() {
            Err(error) if error.kind() == io::ErrorKind::Interrupted => {}
            result => return result,
        }
    }
}

/// Whether the path still leads to this file.
fn is_at(file: &File, path: &Path) -> io::Result<bool> {
    let key = |data: Metadata| (data.dev(), data.ino());
    match fs::metadata(path) {
        Ok(there) => Ok(key(there) == key(file.metadata()?)),
        Err(error) if error.kind() == io::ErrorKind::NotFound => Ok(false),
        Err(error) => Err(error),
    }
}

/// Writes a file that is not there yet: beside its place, and flushed, before it has its name; then
/// the folder is flushed. What is there already is not touched.
pub fn create(path: &Path, bytes: &[u8]) -> Result<(), KeepError> {
    let folder = folder_of(path).and_then(File::open).map_err(KeepError::of(NOTHING))?;
    let new = write_beside(path, bytes).map_err(KeepError::of(NOTHING))?;
    new.file.sync_all().map_err(KeepError::of_flush(NOTHING))?;
    let _new = new.rename_to_new(path).map_err(KeepError::of(NOTHING))?;
    folder.sync_all().map_err(KeepError::of_flush(THERE))
}

fn write_beside(path: &Path, bytes: &[u8]) -> io::Result<Temporary> {
    if fs::symlink_metadata(path).is_ok() {
        return Err(io::Error::from_raw_os_error(EEXIST));
    }
    // There is no lock on a file that is not there: who writes one beside it has locked that.
    remove_left_over(path, is_unlocked)?;
    let mut new = Temporary::beside(path, 0o666)?;
    lock(&new.file, Locking::Wait)?;
    new.file.write_all(bytes)?;
    Ok(new)
}
