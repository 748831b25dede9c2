//! System calls on files that the standard library has no name for. The `unsafe` code of the
//! library part is here; that of the program is in os.rs.

use std::ffi::{c_char, c_int, c_uint, c_void, CStr, CString};
use std::fs::File;
use std::io;
use std::os::fd::AsRawFd;
use std::os::unix::ffi::OsStrExt;
use std::path::Path;

const AT_FDCWD: c_int = -100;
const RENAME_NOREPLACE: c_uint = 1;
const ENODATA: i32 = 61;
const EOPNOTSUPP: i32 = 95;
/// The kernel gives neither a list of names nor a value that is longer.
const MOST_BYTES: usize = 65_536;

extern "C" {
    fn flistxattr(file: c_int, names: *mut c_char, size: usize) -> isize;
    fn fgetxattr(file: c_int, name: *const c_char, value: *mut c_void, size: usize) -> isize;
    fn fsetxattr(
        file: c_int,
        name: *const c_char,
        value: *const c_void,
        size: usize,
        flags: c_int,
    ) -> c_int;
    fn fremovexattr(file: c_int, name: *const c_char) -> c_int;
    fn renameat2(
        old_folder: c_int,
        old: *const c_char,
        new_folder: c_int,
        new: *const c_char,
        flags: c_uint,
    ) -> c_int;
}

fn done(result: c_int) -> io::Result<()> {
    if result == -1 {
        return Err(io::Error::last_os_error());
    }
    Ok(())
}

/// The bytes that a call wrote to the front of the buffer; none where it says that there are none.
fn filled(mut buffer: Vec<u8>, result: isize) -> io::Result<Option<Vec<u8>>> {
    if let Ok(size) = usize::try_from(result) {
        buffer.truncate(size);
        return Ok(Some(buffer));
    }
    let error = io::Error::last_os_error();
    match error.raw_os_error() {
        Some(ENODATA | EOPNOTSUPP) => Ok(None),
        _ => Err(error),
    }
}

/// The names of the extended attributes of a file; none where the file system has none.
pub fn attribute_names(file: &File) -> io::Result<Vec<CString>> {
    let mut names = vec![0u8; MOST_BYTES];
    // SAFETY: writes at most as many bytes as the buffer has.
    let size = unsafe { flistxattr(file.as_raw_fd(), names.as_mut_ptr().cast(), names.len()) };
    let names = filled(names, size)?.unwrap_or_default();
    let names = names.split(|byte| *byte == 0).filter(|name| !name.is_empty());
    // What was split at each 0 has none in it.
    Ok(names.filter_map(|name| CString::new(name).ok()).collect())
}

/// The value of an extended attribute; none if the file does not have it.
pub fn attribute(file: &File, name: &CStr) -> io::Result<Option<Vec<u8>>> {
    let mut value = vec![0u8; MOST_BYTES];
    let place = value.as_mut_ptr().cast();
    // SAFETY: the name ends with 0; writes at most as many bytes as the buffer has.
    let size = unsafe { fgetxattr(file.as_raw_fd(), name.as_ptr(), place, value.len()) };
    filled(value, size)
}

pub fn set_attribute(file: &File, name: &CStr, value: &[u8]) -> io::Result<()> {
    let (number, place) = (file.as_raw_fd(), value.as_ptr().cast());
    // SAFETY: the name ends with 0; reads as many bytes as the value has.
    done(unsafe { fsetxattr(number, name.as_ptr(), place, value.len(), 0) })
}

pub fn remove_attribute(file: &File, name: &CStr) -> io::Result<()> {
    // SAFETY: the name ends with 0.
    done(unsafe { fremovexattr(file.as_raw_fd(), name.as_ptr()) })
}

/// Renames a file; fails with `AlreadyExists` if anything has the new name.
pub fn rename_to_new(old: &Path, new: &Path) -> io::Result<()> {
    let name = |path: &Path| CString::new(path.as_os_str().as_bytes());
    let (old, new) = (name(old)?, name(new)?);
    // SAFETY: both names end with 0.
    done(unsafe { renameat2(AT_FDCWD, old.as_ptr(), AT_FDCWD, new.as_ptr(), RENAME_NOREPLACE) })
}
