//! Scripts (request P11): which words of a pool change and to what; preparing that from a command, and applying it.

use crate::answers::*;
use crate::batch::{read, Command};
use crate::calls::{outcome, Outcome};
use crate::command::execute;
use crate::pool::node_count;
use crate::recover::recover;

/// The script from one state of a pool to another (R321): a pair for each word that differs, where it stands and what it becomes.
pub fn script(before: &[u64], after: &[u64]) -> Vec<u64> {
    let words = (0u64..).zip(before.iter().zip(after));
    let changed = words.filter(|(_, (old, new))| old != new);
    changed.flat_map(|(place, (_, new))| [place, *new]).collect()
}

/// Writes the script of one changing command to the start of the slice. The pool is only read, and where the answer is
/// not 0 the slice stays as it was.
pub fn prepare(pool: &[u64], record: &[u8], slice: &mut [u64]) -> Outcome {
    if node_count(pool.len()).is_none() {
        return outcome(POOL_LENGTH, 0);
    }
    let Some(before) = recover(pool) else {
        return outcome(NOT_WELL_FORMED, 0);
    };
    let Some(command) = changing(record) else {
        return outcome(BAD_BATCH, 0);
    };
    let done = execute(&before, command);
    if done.reply.answer != DONE {
        return outcome(done.reply.answer, 0);
    }
    let script = script(pool, &done.state.words());
    let Some(space) = slice.get_mut(..script.len()) else {
        return outcome(REPLY_SPACE, script.len());
    };
    space.copy_from_slice(&script);
    outcome(DONE, script.len())
}

/// The command of these bytes, if they are its one record and it is of those that can change a pool.
fn changing(bytes: &[u8]) -> Option<Command> {
    match read(bytes).ok()?[..] {
        [Command::Load { .. } | Command::Find { .. }] => None,
        [command] => Some(command),
        _ => None,
    }
}

/// Writes each pair of a script, one after the other. What the pool holds is not looked at, and where the answer is
/// not 0 no word is written.
pub fn apply(pool: &mut [u64], script: &[u64]) -> Outcome {
    if node_count(pool.len()).is_none() {
        return outcome(POOL_LENGTH, 0);
    }
    let Some(writes) = writes(script, pool.len()) else {
        return outcome(BAD_SCRIPT, 0);
    };
    for (place, value) in writes {
        pool[place] = value;
    }
    outcome(DONE, 0)
}

/// The writes of a script to so many words; none if a pair is cut, or a place lies outside.
fn writes(script: &[u64], words: usize) -> Option<Vec<(usize, u64)>> {
    let pairs = script.chunks(2).map(|pair| match pair {
        [place, value] => Some((usize::try_from(*place).ok()?, *value)),
        _ => None,
    });
    pairs.map(|pair| pair.filter(|(place, _)| *place < words)).collect()
}
