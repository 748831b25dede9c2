//! Why the tool ends, with its exit status.

/// A message for standard error; none is written where it is empty.
#[derive(Debug)]
pub struct Failure {
    pub status: u8,
    pub message: String,
}

/// Status 1: an input, a file or an output is at fault.
pub fn malformed(message: impl Into<String>) -> Failure {
    Failure { status: 1, message: message.into() }
}

/// Status 2: bad usage or a syntax error.
pub fn usage(message: impl Into<String>) -> Failure {
    Failure { status: 2, message: message.into() }
}

/// Status 3: a flush failed, so what the file holds may not be on disk.
pub const NOT_FLUSHED: u8 = 3;

/// Status 4: not every command was done, and `--strict` keeps nothing then; or neither sheet names the
/// index.
pub const NOT_DONE: u8 = 4;
