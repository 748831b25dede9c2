//! A file that is written beside its place, under a name of its own, and then put there.

use crate::system;
use std::ffi::{OsStr, OsString};
use std::fs::{self, File, OpenOptions};
use std::io;
use std::os::unix::ffi::OsStrExt;
use std::os::unix::fs::OpenOptionsExt;
use std::path::{Path, PathBuf};

const EINVAL: i32 = 22;
const ENOSYS: i32 = 38;

/// A new file that is removed again unless it is put in its place.
#[derive(Debug)]
pub struct Temporary {
    pub file: File,
    path: PathBuf,
    keep: bool,
}

impl Temporary {
    /// `.NAME.xabatch-PID` in the folder of this path.
    pub fn beside(path: &Path, mode: u32) -> io::Result<Temporary> {
        let mut name = prefix(path)?;
        name.push(std::process::id().to_string());
        let path = path.with_file_name(name);
        let file = OpenOptions::new().write(true).create_new(true).mode(mode).open(&path)?;
        Ok(Temporary { file, path, keep: false })
    }

    /// Puts it in the place of what is there; gives the file, which is still open.
    pub fn rename(mut self, path: &Path) -> io::Result<File> {
        let file = self.file.try_clone()?;
        fs::rename(&self.path, path)?;
        self.keep = true;
        Ok(file)
    }

    /// Puts it where nothing is.
    pub fn rename_to_new(mut self, path: &Path) -> io::Result<File> {
        let file = self.file.try_clone()?;
        match system::rename_to_new(&self.path, path) {
            // Not every file system can; a second name never overwrites either, and the first goes
            // with this value.
            Err(error) if matches!(error.raw_os_error(), Some(EINVAL | ENOSYS)) => {
                fs::hard_link(&self.path, path)?;
            }
            Err(error) => return Err(error),
            Ok(()) => self.keep = true,
        }
        Ok(file)
    }
}

impl Drop for Temporary {
    fn drop(&mut self) {
        if !self.keep {
            // What is the matter was told already; the next process tries again.
            let _ = fs::remove_file(&self.path);
        }
    }
}

/// The folder of a file.
pub fn folder_of(path: &Path) -> io::Result<&Path> {
    match path.parent() {
        Some(folder) if folder.as_os_str().is_empty() => Ok(Path::new(".")),
        Some(folder) => Ok(folder),
        None => Err(io::Error::other("it is in no folder")),
    }
}

/// `.NAME.xabatch-`: what the names of our temporary files begin with.
fn prefix(path: &Path) -> io::Result<OsString> {
    let name = path.file_name().ok_or_else(|| io::Error::other("it has no name"))?;
    let mut prefix = OsString::from(".");
    prefix.push(name);
    prefix.push(".xabatch-");
    Ok(prefix)
}

/// Removes what processes that were killed left beside this path. One that cannot be removed is in
/// nobody's way.
pub fn remove_left_over(path: &Path, is_dead: fn(&Path) -> bool) -> io::Result<()> {
    let prefix = prefix(path)?;
    for item in fs::read_dir(folder_of(path)?)?.flatten() {
        if is_temporary(&item.file_name(), &prefix) && is_dead(&item.path()) {
            let _ = fs::remove_file(item.path());
        }
    }
    Ok(())
}

fn is_temporary(name: &OsStr, prefix: &OsStr) -> bool {
    let number = name.as_bytes().strip_prefix(prefix.as_bytes());
    number.is_some_and(|number| !number.is_empty() && number.iter().all(u8::is_ascii_digit))
}

/// Whether nobody has the lock of the file: who writes one holds it.
pub fn is_unlocked(path: &Path) -> bool {
    File::open(path).is_ok_and(|file| file.try_lock().is_ok())
}
