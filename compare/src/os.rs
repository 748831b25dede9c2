//! Memory between unreadable pages, and trials in a child process that may crash.
//!
//! All `unsafe` code of this crate is here.

use std::os::fd::AsRawFd;
use std::sync::atomic::AtomicU64;

const PAGE: usize = 4096;
const PROT_NONE: i32 = 0;
const PROT_READ: i32 = 1;
const PROT_WRITE: i32 = 2;
const MAP_SHARED: i32 = 1;
const MAP_PRIVATE: i32 = 2;
const MAP_ANONYMOUS: i32 = 32;
const FIONREAD: u64 = 0x541B;

extern "C" {
    fn mmap(at: *mut u8, size: usize, access: i32, kind: i32, file: i32, offset: i64) -> *mut u8;
    fn mprotect(at: *mut u8, size: usize, access: i32) -> i32;
    fn fork() -> i32;
    fn waitpid(child: i32, status: *mut i32, options: i32) -> i32;
    fn alarm(seconds: u32) -> u32;
    fn ioctl(file: i32, request: u64, number: *mut i32) -> i32;
    fn _exit(status: i32) -> !;
}

fn map(size: usize, kind: i32) -> *mut u8 {
    // SAFETY: a new mapping of no file, at a place that the kernel chooses.
    let at = unsafe {
        mmap(std::ptr::null_mut(), size, PROT_READ | PROT_WRITE, kind | MAP_ANONYMOUS, -1, 0)
    };
    assert!(at as isize != -1, "mmap gives no memory");
    at
}

/// A buffer between two unreadable pages: its first byte follows one, and its last byte is the last before the other. It is
/// never unmapped.
pub struct Guarded {
    start: *mut u8,
    size: usize,
}

impl Guarded {
    /// Room for at least so many bytes.
    pub fn new(bytes: usize) -> Guarded {
        // One page more, so that there are always some bytes before what is lent.
        let size = bytes.next_multiple_of(PAGE) + PAGE;
        let before = map(size + 2 * PAGE, MAP_PRIVATE);
        // SAFETY: the first page of the mapping just made, and what follows it.
        let (first, start) = unsafe { (mprotect(before, PAGE, PROT_NONE), before.add(PAGE)) };
        // SAFETY: the last page of that mapping.
        let last = unsafe { mprotect(start.add(size), PAGE, PROT_NONE) };
        assert!((first, last) == (0, 0), "mprotect refuses a page at the ends");
        Guarded { start, size }
    }

    /// All bytes up to the unreadable page.
    pub fn bytes(&mut self) -> &mut [u8] {
        // SAFETY: the mapping has so many bytes that can be read and written, and `self` is
        // borrowed alone.
        unsafe { std::slice::from_raw_parts_mut(self.start, self.size) }
    }

    /// All words up to the unreadable page.
    pub fn words(&mut self) -> &mut [u64] {
        // SAFETY: as in `bytes`; a page begins at a multiple of 8, and so does the mapping.
        unsafe { std::slice::from_raw_parts_mut(self.start.cast(), self.size / 8) }
    }

    /// From here on a write crashes, or no longer.
    pub fn read_only(&mut self, only: bool) {
        self.allow(if only { PROT_READ } else { PROT_READ | PROT_WRITE });
    }

    /// From here on a read crashes too, or no longer.
    pub fn hidden(&mut self, hidden: bool) {
        self.allow(if hidden { PROT_NONE } else { PROT_READ | PROT_WRITE });
    }

    fn allow(&mut self, access: i32) {
        // SAFETY: the pages of this mapping between the unreadable ones.
        let done = unsafe { mprotect(self.start, self.size, access) };
        assert!(done == 0, "mprotect refuses the buffer");
    }
}

/// Whether a read of one byte too far, of one too early and of what is hidden, and a write to what is read only, do end a
/// process.
pub fn guards_hold() -> bool {
    let before = in_child(|| {
        let buffer = Guarded::new(PAGE);
        // SAFETY: the byte is unreadable, and that is what is tried.
        i32::from(unsafe { buffer.start.sub(1).read_volatile() })
    });
    let hidden = in_child(|| {
        let mut buffer = Guarded::new(PAGE);
        buffer.hidden(true);
        // SAFETY: as above.
        i32::from(unsafe { buffer.start.read_volatile() })
    });
    let past = in_child(|| {
        let buffer = Guarded::new(PAGE);
        // SAFETY: the byte is unreadable, and that is what is tried.
        i32::from(unsafe { buffer.start.add(buffer.size).read_volatile() })
    });
    let write = in_child(|| {
        let mut buffer = Guarded::new(PAGE);
        buffer.read_only(true);
        // SAFETY: the byte cannot be written, and that is what is tried.
        unsafe { buffer.start.write_volatile(1) };
        0
    });
    [past, write, before, hidden] == [End::Signal(11); 4]
}

pub const SHARED_NUMBERS: usize = 700;

/// Numbers that a child process shares with its parent, all 0 at first.
pub fn shared_numbers() -> &'static [AtomicU64; SHARED_NUMBERS] {
    let at = map(8 * SHARED_NUMBERS, MAP_SHARED);
    // SAFETY: zeros that are never unmapped, so many of them; a page begins at a multiple of 8.
    unsafe { &*at.cast() }
}

/// How a child process ended.
#[derive(Clone, Copy, Debug, PartialEq, Eq)]
pub enum End {
    /// With this exit status.
    Status(i32),
    /// By this signal: 11 if it read or wrote past a buffer, 14 if it did not end in time.
    Signal(i32),
}

/// Runs this in a child process, which a crash ends and not us. This process has one thread, so
/// the child may do whatever this process may.
pub fn in_child(work: impl FnOnce() -> i32) -> End {
    // SAFETY: there is one thread.
    let child = unsafe { fork() };
    assert!(child >= 0, "fork gives no process");
    if child == 0 {
        let status = work();
        // SAFETY: ends the child, without what is to happen at the end of the parent.
        unsafe { _exit(status) }
    }
    let mut status = 0;
    // SAFETY: waits for the child just made; status is a place for one number.
    while unsafe { waitpid(child, &mut status, 0) } != child {}
    match status & 0x7f {
        0 => End::Status(status >> 8 & 0xff),
        signal => End::Signal(signal),
    }
}

/// How many bytes in this pipe are not yet read.
pub fn unread(pipe: &impl AsRawFd) -> i32 {
    let mut count = 0;
    // SAFETY: asks of an open file; count is a place for one number.
    unsafe { ioctl(pipe.as_raw_fd(), FIONREAD, &mut count) };
    count
}

/// Ends this process with signal 14 after so many seconds, unless it is called again before.
pub fn end_after(seconds: u32) {
    // SAFETY: sets a timer; whatever timer stood is dropped.
    unsafe { alarm(seconds) };
}
