//! What the standard library has no name for. The `unsafe` code of the program is here; that of the
//! library part is in system.rs.

use std::fs::File;
use std::io;
use std::os::fd::AsRawFd;
use std::sync::atomic::{AtomicU8, Ordering};

const F_GETFD: i32 = 1;
const SIGXFSZ: i32 = 25;
const SIG_IGN: usize = 1;
const SEEK_DATA: i32 = 3;
/// There is nothing there.
const ENXIO: i32 = 6;

extern "C" {
    fn fcntl(file: i32, command: i32, ...) -> i32;
    fn signal(number: i32, handler: usize) -> usize;
    fn lseek(file: i32, offset: i64, whence: i32) -> i64;
}

/// Bit k: file k was closed when the process began.
static CLOSED: AtomicU8 = AtomicU8::new(0);

/// Rust opens /dev/null in place of a closed standard file before `main`, and what is written
/// there is lost in silence; so this is asked before that.
extern "C" fn look_at_standard_files() {
    for file in 0..3 {
        // SAFETY: asks for the flags of a number; it need not be that of an open file.
        if unsafe { fcntl(file, F_GETFD) } == -1 {
            CLOSED.fetch_or(1 << file, Ordering::Relaxed);
        }
    }
}

/// The functions of this section are called before Rust's own start.
#[used]
#[link_section = ".init_array"]
static BEFORE_START: extern "C" fn() = look_at_standard_files;

/// Whether this standard file (0, 1 or 2) was closed when the process began.
pub fn was_closed(file: u8) -> bool {
    CLOSED.load(Ordering::Relaxed) >> file & 1 == 1
}

/// A file that reaches its size limit is then an error of that write, not the end of the process.
pub fn size_limit_is_an_error() {
    // SAFETY: ignores one signal; no handler is set.
    unsafe { signal(SIGXFSZ, SIG_IGN) };
}

/// Whether a file that is not empty is holes alone, without any data: it reads as zeros that nobody wrote.
/// Moves where the file is read next.
pub fn is_holes_alone(file: &File) -> bool {
    // SAFETY: asks of an open file where its data begins; no memory is handed over.
    let data = unsafe { lseek(file.as_raw_fd(), 0, SEEK_DATA) };
    data == -1 && io::Error::last_os_error().raw_os_error() == Some(ENXIO)
}
