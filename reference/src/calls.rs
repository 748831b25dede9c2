//! The four calls over borrowed slices: init, check, run, list.

use crate::answers::*;
use crate::batch::{read, REPLY_BYTES};
use crate::command::execute_each;
use crate::listing::{listing, LISTED_BYTES};
use crate::pool::{node_count, State};
use crate::recover::recover;

#[derive(Clone, Copy, Debug, PartialEq, Eq)]
pub struct Outcome {
    pub answer: u64,
    pub number: u64,
}

pub(crate) fn outcome(answer: u8, number: usize) -> Outcome {
    Outcome { answer: u64::from(answer), number: number as u64 }
}

/// Init (document 01: blanking): the first word is N, the others are 0.
pub fn init(pool: &mut [u64]) -> Outcome {
    let Some(count) = node_count(pool.len()) else {
        return outcome(POOL_LENGTH, 0);
    };
    pool.copy_from_slice(&State::empty(count).words());
    outcome(DONE, 0)
}

pub fn check(pool: &[u64]) -> Outcome {
    if node_count(pool.len()).is_none() {
        return outcome(POOL_LENGTH, 0);
    }
    match recover(pool) {
        Some(_) => outcome(DONE, 0),
        None => outcome(NOT_WELL_FORMED, 0),
    }
}

/// Runs a batch; a refused call alters neither pool nor reply.
pub fn run(pool: &mut [u64], batch: &[u8], reply: &mut [u8]) -> Outcome {
    if node_count(pool.len()).is_none() {
        return outcome(POOL_LENGTH, 0);
    }
    let Some(before) = recover(pool) else {
        return outcome(NOT_WELL_FORMED, 0);
    };
    let commands = match read(batch) {
        Ok(commands) => commands,
        Err(place) => return outcome(BAD_BATCH, place),
    };
    if reply.len() < REPLY_BYTES * commands.len() {
        return outcome(REPLY_SPACE, commands.len());
    }
    let all = execute_each(&before, &commands);
    for (done, space) in all.iter().zip(reply.chunks_mut(REPLY_BYTES)) {
        space.copy_from_slice(&done.reply.bytes());
    }
    let after = all.last().map_or(&before, |done| &done.state);
    pool.copy_from_slice(&after.words());
    outcome(DONE, commands.len())
}

/// Lists the entries from first to last into the buffer, all of them or none.
pub fn list(pool: &[u64], first: u64, last: u64, buffer: &mut [u8]) -> Outcome {
    if node_count(pool.len()).is_none() {
        return outcome(POOL_LENGTH, 0);
    }
    let Some(state) = recover(pool) else {
        return outcome(NOT_WELL_FORMED, 0);
    };
    if first > last {
        return outcome(FIRST_ABOVE_LAST, 0);
    }
    let bytes = listing(&state.list, first, last);
    let entries = bytes.len() / LISTED_BYTES;
    let Some(space) = buffer.get_mut(..bytes.len()) else {
        return outcome(REPLY_SPACE, entries);
    };
    space.copy_from_slice(&bytes);
    outcome(DONE, entries)
}
