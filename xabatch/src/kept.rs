//! What a file keeps, and what runs batches on it: a pool, or with `--plain` a plain list.

use crate::failure::{usage, Failure};
use crate::files::{self, of_file};
use std::ffi::OsStr;
use xabatch::json::Object;
use xabatch::kind::is_names;
use xapool_host::{Engine, Plain, Pool, Refusal, MOST_ENTRIES, PLAIN_FILE};

pub enum Kept {
    Pool(Pool<'static>),
    Plain(Plain<'static>),
}

impl Kept {
    /// An empty one of so many nodes, or for so many entries.
    pub fn new(size: &str, plain: bool) -> Result<Kept, Failure> {
        let of = if plain { "entries" } else { "nodes" };
        let count = size.parse().map_err(|_| usage(format!("'{size}' is no number of {of}")))?;
        let made = match plain {
            true => Plain::new(count).map(Kept::Plain),
            false => Pool::new(count).map(Kept::Pool),
        };
        made.map_err(|refusal| match refusal {
            Refusal::SliceLength => {
                usage(format!("{size} entries: a plain list has room for 0 to {MOST_ENTRIES}"))
            }
            _ => usage(format!("{size} {of}: {refusal}")),
        })
    }

    /// What the bytes of a file are. One of the other kind is named: which engine runs is never guessed.
    pub fn of(file: &OsStr, bytes: &[u8], plain: bool) -> Result<Kept, Failure> {
        if is_names(bytes) {
            return Err(of_file(file, "a pool of names, on which no batch runs"));
        }
        match (plain, bytes.starts_with(&PLAIN_FILE)) {
            (true, true) => plain_of(file, bytes).map(Kept::Plain),
            (false, false) => Ok(Kept::Pool(Pool::from_words(files::words_of(file, bytes)?))),
            (true, false) => Err(of_file(file, "no plain list: run it without --plain")),
            (false, true) => Err(of_file(file, "a plain list: run it with --plain")),
        }
    }

    pub fn engine(&mut self) -> &mut dyn Engine {
        match self {
            Kept::Pool(pool) => pool,
            Kept::Plain(plain) => plain,
        }
    }

    pub fn to_bytes(&self) -> Vec<u8> {
        match self {
            Kept::Pool(pool) => pool.to_bytes(),
            Kept::Plain(plain) => plain.to_bytes(),
        }
    }

    /// How much there is and how much of it is in use.
    pub fn json(&self, object: Object) -> Object {
        let (name, all, in_use) = match self {
            Kept::Pool(pool) => ("nodes", pool.nodes().unwrap_or(0), pool.nodes_in_use()),
            Kept::Plain(plain) => ("room", plain.room(), plain.in_use()),
        };
        object.with(name, all).with("in_use", in_use).with("free", all.saturating_sub(in_use))
    }
}

/// The plain list of a file, checked.
pub fn plain_of(file: &OsStr, bytes: &[u8]) -> Result<Plain<'static>, Failure> {
    Plain::from_bytes(bytes).map_err(|refusal| match refusal {
        Refusal::SliceLength => {
            let most = MOST_ENTRIES;
            let what = "no plain list: its length is not 16 + 32 N bytes for its room N";
            of_file(file, format!("{what}, 0 to {most}"))
        }
        _ => of_file(file, refusal),
    })
}
