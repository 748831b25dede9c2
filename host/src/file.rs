//! A pool in a file, with a digest.

use crate::answer::Refusal;
use crate::layout::node_place;
use crate::pool::{Pool, MOST_NODES};
use crate::region::Crc32c;
use std::ffi::OsString;
use std::fmt;
use std::fs::{self, File, OpenOptions};
use std::io::{self, Read, Write};
use std::path::{Path, PathBuf};

type Flush = fn(&File) -> io::Result<()>;

/// Why a pool was not saved or not loaded.
#[derive(Debug)]
#[non_exhaustive]
pub enum FileError {
    /// The file could not be read, or not written: then what stood under its name stands as it was.
    Io {
        /// The file.
        path: PathBuf,
        /// What the system said.
        error: io::Error,
    },
    /// The new file is under its name, but its folder could not be flushed: a power cut may bring the
    /// old one back.
    NotFlushed {
        /// The file.
        path: PathBuf,
        /// What the system said.
        error: io::Error,
    },
    /// The file has other bytes than those that were saved.
    OtherDigest {
        /// The file.
        path: PathBuf,
        /// What was asked for.
        kept: Crc32c,
        /// That of the file.
        found: Crc32c,
    },
    /// The words are not those of a pool. None is saved over one that may be good.
    Refused(Refusal),
}

impl fmt::Display for FileError {
    fn fmt(&self, f: &mut fmt::Formatter) -> fmt::Result {
        match self {
            FileError::Io { path, error } => write!(f, "{}: {error}", path.display()),
            FileError::NotFlushed { path, error } => {
                let path = path.display();
                write!(f, "{path}: {error}; it is replaced, but a power cut may undo that")
            }
            FileError::OtherDigest { path, kept, found } => {
                write!(f, "{}: its digest is {found}, not {kept}", path.display())
            }
            FileError::Refused(refusal) => refusal.fmt(f),
        }
    }
}

impl std::error::Error for FileError {}

impl From<Refusal> for FileError {
    fn from(refusal: Refusal) -> FileError {
        FileError::Refused(refusal)
    }
}

impl Pool<'_> {
    /// Saves the pool under this name, as [`Pool::to_bytes`] and xabatch have it, and gives the digest
    /// of its bytes: keep it elsewhere, [`Pool::load`] asks for it. A new file is written beside it and
    /// flushed to disk, takes its name, and the folder is flushed. So a power cut leaves the old file or
    /// the new one, whole, and after `Ok` the new one. Two that save under one name at a time must agree
    /// on their turns. A name that is a link leads to the file that is replaced.
    ///
    /// ```
    /// # use xapool_host::{Crc32c, FileError, Pool};
    /// # let path = std::env::temp_dir().join(format!("xapool-save-{}.pool", std::process::id()));
    /// let pool = Pool::new(40)?;
    /// let digest = pool.save(&path)?;
    /// assert_eq!(Pool::load(&path, digest)?.words(), pool.words());
    /// let other = Pool::load(&path, Crc32c::from_value(7));
    /// assert!(matches!(other, Err(FileError::OtherDigest { .. })));
    /// # std::fs::remove_file(&path)?;
    /// # Ok::<(), Box<dyn std::error::Error>>(())
    /// ```
    #[must_use = "it may not be saved, and a load asks for the digest"]
    pub fn save(&self, path: impl AsRef<Path>) -> Result<Crc32c, FileError> {
        self.save_with(path.as_ref(), File::sync_all)
    }

    /// The same, with what flushes a file or a folder to disk.
    pub(crate) fn save_with(&self, path: &Path, flush: Flush) -> Result<Crc32c, FileError> {
        self.check()?;
        // What is not there yet has no other name.
        let path = fs::canonicalize(path).unwrap_or_else(|_| path.to_owned());
        let bytes = self.to_bytes();
        let folder = put_in_place(&path, &bytes, flush)
            .map_err(|error| FileError::Io { path: path.clone(), error })?;
        flush(&folder).map_err(|error| FileError::NotFlushed { path, error })?;
        Ok(Crc32c::of(&bytes))
    }
}

impl Pool<'static> {
    /// The pool that was saved under this name, if its bytes have this digest and are well-formed.
    pub fn load(path: impl AsRef<Path>, digest: Crc32c) -> Result<Pool<'static>, FileError> {
        let path = path.as_ref();
        let bytes = read_pool(path)
            .map_err(|error| FileError::Io { path: path.to_owned(), error })?
            .ok_or(Refusal::PoolLength)?;
        let found = Crc32c::of(&bytes);
        if found != digest {
            return Err(FileError::OtherDigest { path: path.to_owned(), kept: digest, found });
        }
        Ok(Pool::from_bytes(&bytes)?)
    }
}

/// All bytes of a file; none if it has more than any pool has, which is not read.
fn read_pool(path: &Path) -> io::Result<Option<Vec<u8>>> {
    let most = 8 * node_place(MOST_NODES);
    let mut bytes = Vec::new();
    File::open(path)?.take(most as u64 + 1).read_to_end(&mut bytes)?;
    Ok((bytes.len() <= most).then_some(bytes))
}

/// Puts a file of these bytes, on disk, under this name; gives the folder, which is still to be flushed.
/// It is opened before anything is changed: it must not be this that fails afterwards.
fn put_in_place(path: &Path, bytes: &[u8], flush: Flush) -> io::Result<File> {
    let parent = path.parent().filter(|parent| !parent.as_os_str().is_empty());
    let folder = File::open(parent.unwrap_or(Path::new(".")))?;
    let beside = beside(path)?;
    let mut new = OpenOptions::new().write(true).create_new(true).open(&beside)?;
    let renamed = write_whole(&mut new, bytes, path)
        .and_then(|()| flush(&new))
        .and_then(|()| fs::rename(&beside, path));
    if renamed.is_err() {
        let _ = fs::remove_file(&beside);
    }
    renamed.map(|()| folder)
}

/// Writes a new file, with the permissions of the one that it replaces.
fn write_whole(new: &mut File, bytes: &[u8], old: &Path) -> io::Result<()> {
    if let Ok(data) = fs::metadata(old) {
        new.set_permissions(data.permissions())?;
    }
    new.write_all(bytes)
}

/// The name of a new file in the same folder. No other of this process or another has it.
fn beside(path: &Path) -> io::Result<PathBuf> {
    use std::sync::atomic::{AtomicU64, Ordering};
    static SAVES: AtomicU64 = AtomicU64::new(0);
    let no_name = || io::Error::new(io::ErrorKind::InvalidInput, "it has no file name");
    let mut name = OsString::from(".");
    name.push(path.file_name().ok_or_else(no_name)?);
    let number = SAVES.fetch_add(1, Ordering::Relaxed);
    name.push(format!(".xapool-{}-{number}", std::process::id()));
    Ok(path.with_file_name(name))
}
