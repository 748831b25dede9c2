//! Standard input and output, and files by name.

use crate::failure::{malformed, Failure};
use crate::os;
use std::ffi::{OsStr, OsString};
use std::fs::{self, File};
use std::io::{self, ErrorKind, Read, Write};
use std::os::fd::AsFd;
use xabatch::escape;
use xabatch::locked::read_at_most;
use xapool_host::layout::{ANCHOR_WORDS, NODE_WORDS};
use xapool_host::{words_of_bytes, MOST_NODES};

/// The name that stands for it.
pub fn standard_input() -> OsString {
    "-".into()
}

/// How a file is called in messages.
pub fn name(file: &OsStr) -> String {
    if file == "-" {
        "<stdin>".into()
    } else {
        file.to_string_lossy().into_owned()
    }
}

/// A failure of this file.
pub fn of_file(file: &OsStr, what: impl std::fmt::Display) -> Failure {
    malformed(format!("{}: {what}", name(file)))
}

/// All bytes of a file; `-` is standard input.
pub fn read(file: &OsStr) -> Result<Vec<u8>, Failure> {
    let read = match file == "-" {
        true if os::was_closed(0) => Err(io::Error::other("it is closed")),
        true => {
            let mut bytes = Vec::new();
            io::stdin().read_to_end(&mut bytes).map(|_| bytes)
        }
        false => fs::read(file),
    };
    read.map_err(|error| of_file(file, error))
}

/// Fails if standard output is closed: to be asked before anything is changed.
pub fn output_is_open() -> Result<(), Failure> {
    if os::was_closed(1) {
        return Err(malformed("standard output: it is closed"));
    }
    Ok(())
}

/// One line on standard error. One that cannot be written stops nothing: the exit status tells.
pub fn complain(message: &str) {
    let line = format!("xabatch: {}\n", escape::plain(message));
    let _ = io::stderr().write_all(line.as_bytes());
}

/// Writes to standard output. Where the reader went away, as `head` does, the status tells it alone.
pub fn write(bytes: &[u8]) -> Result<(), Failure> {
    output_is_open()?;
    try_write(bytes).map_err(|error| match error.kind() {
        ErrorKind::BrokenPipe => malformed(""),
        _ => malformed(format!("standard output: {error}")),
    })
}

/// Writes to standard output, all or with the error. Past Rust's own buffer, which would write in
/// pieces and takes some errors for success.
pub fn try_write(bytes: &[u8]) -> io::Result<()> {
    let mut out = File::from(io::stdout().as_fd().try_clone_to_owned()?);
    out.write_all(bytes)
}

pub fn write_lines(lines: &[String]) -> Result<(), Failure> {
    write(lines.iter().map(|line| format!("{line}\n")).collect::<String>().as_bytes())
}

/// No pool file has more bytes than this.
pub const MOST_POOL_BYTES: u64 = 8 * (ANCHOR_WORDS + NODE_WORDS * MOST_NODES) as u64;

/// The bytes of a pool file; `-` is standard input. One that is too long for a pool is not read.
pub fn read_pool(file: &OsStr) -> Result<Vec<u8>, Failure> {
    let opened = match file == "-" {
        true if os::was_closed(0) => Err(io::Error::other("it is closed")),
        true => io::stdin().as_fd().try_clone_to_owned().map(File::from),
        false => File::open(file),
    };
    let read = opened.and_then(|opened| read_at_most(&opened, MOST_POOL_BYTES));
    no_longer(file, read.map_err(|error| of_file(file, error))?)
}

/// The bytes of a pool file; none are given of one that has too many.
pub fn no_longer(file: &OsStr, bytes: Option<Vec<u8>>) -> Result<Vec<u8>, Failure> {
    bytes.ok_or_else(|| of_file(file, format!("no pool: too long, over {MOST_POOL_BYTES} bytes")))
}

/// The words of the bytes of a pool file.
pub fn words_of(file: &OsStr, bytes: &[u8]) -> Result<Vec<u64>, Failure> {
    let left = bytes.len() % 8;
    let cut = || of_file(file, format!("{left} bytes after the last whole word"));
    words_of_bytes(bytes).ok_or_else(cut)
}
