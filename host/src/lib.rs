//! Entries kept by 64-bit index in a pool of words, and digests and comparisons of regions of bytes: a
//! safe wrapper over the proved library `libxapool.a`.
//!
//! ```
//! use xapool_host::{Command, Pool, Word, FIND_ANY};
//!
//! let mut pool = Pool::new(40)?;
//! let replies = pool.run_all([
//!     Command::Store { index: 64, order: 3, word: Word::value(2)? },
//!     Command::Load { index: 70 },
//! ])?;
//! assert_eq!(replies.all_done()?, 2);
//! assert_eq!(replies[1].done()?.base, 64);
//! for entry in pool.find(.., FIND_ANY) {
//!     println!("{:?}", entry?);
//! }
//! # Ok::<(), Box<dyn std::error::Error>>(())
//! ```
//!
//! A [`Pool`] owns or borrows its words and runs [`Command`]s: [`Pool::run_all`] any number,
//! [`Pool::run`] one batch that a [`BatchBuilder`] gathered, [`Pool::find`] the finds that go through
//! a range, [`Walk`] the same with a pool that may change in between; [`Pool::list`] gives a range's entries in one call, as bytes to keep. Each command has one
//! [`Reply`], whose [`Answer`] says whether it was done: [`Replies::all_done`] looks at all of them. A
//! call that the library refuses is a [`Refusal`]: nothing ran. [`Pool::save`] and [`Pool::load`] keep a
//! pool in a file with a digest. [`Pool::prepare`] makes a [`Script`] of one command, to be kept, and [`Pool::apply_script`]
//! does what the command does, also after a power cut. [`compare`] says whether two regions match, and [`Crc32c`] is their
//! digest. [`evidence`] is the text that a base sheet or its supplement has of a region. A [`Gate`] says
//! whether a share of the job is within its limits. A [`Plain`] runs the same commands as a pool on a sorted run of entries that
//! can be read at a glance; [`Engine`] is either. [`Names`] is a pool of another kind, objects by keys of 1 to 32 bytes. A record that is not there is never a match: see 'Before you sign' in docs/HOST.md and
//! examples/inspection.rs. Nothing here panics, whatever it is given, but for an index past the end of
//! [`Replies`]; `unsafe` is in [`raw`] alone.

#![deny(missing_docs)]

mod answer;
mod batch;
mod command;
mod engine;
mod evidence;
mod file;
mod find;
mod gate;
pub mod layout;
mod list;
mod names;
mod plain;
mod pool;
pub mod raw;
mod region;
mod reply;
mod script;
#[cfg(test)]
mod tests;
mod walk;
mod word;

pub use answer::{Answer, Error, Refusal, RefusedBatch};
pub use batch::{
    count_commands, split_batches, BadBatch, BatchBuilder, BatchFull, Batches, Commands,
    MOST_BATCH_BYTES, PROGRAM_BATCH_BYTES,
};
pub use command::{Command, Tag, FIND_ANY, MOST_ORDER};
pub use engine::Engine;
pub use evidence::{
    evidence, put_evidence, MalformedSheet, Sheet, TextTooLong, EVIDENCE_TAG, MOST_TEXT_BYTES,
};
pub use file::FileError;
pub use find::{Finds, MOST_FINDS};
pub use gate::{floats_are_ieee, Gate, GateRefusal};
pub use list::{BadListed, ListFault, Listing, LISTED_BYTES};
pub use names::{
    block_count, names_words, Block, Key, NameError, Names, KEY_NUMBER_BYTES, MOST_BLOCKS,
    MOST_KEY_BYTES,
};
pub use plain::{Plain, MOST_ENTRIES, PLAIN_FILE};
pub use pool::{
    bytes_of_words, node_count, nodes_for, pool_words, words_of_bytes, Pool, MOST_NODES,
};
pub use region::{compare, Comparison, Crc32c, Pieces, Verdict};
pub use reply::{
    BadRecord, Entry, Marks, NotDone, Place, ProgramError, Record, Records, Replies, Reply,
    REPLY_BYTES,
};
pub use script::{ApplyError, BadScriptBytes, Change, OtherPool, Script, SCRIPT_FILE};
pub use walk::Walk;
pub use word::{Kind, NotAHandle, TooLarge, Word};

/// The Rust blocks of docs/HOST.md are run as tests.
#[cfg(doctest)]
#[doc = include_str!("../../docs/HOST.md")]
struct HostPage;
