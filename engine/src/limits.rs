//! The sizes that a request may move: they stand here alone.

/// An engine has at most so many nodes.
pub const MOST_NODES: usize = 16_384;

/// A batch has at most so many bytes.
pub const MOST_BATCH_BYTES: usize = 32_768;
