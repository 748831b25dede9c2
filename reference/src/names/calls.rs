//! The calls over borrowed slices: clear, check, lookup, insert, delete.

use crate::answers::*;
use crate::calls::Outcome;
use crate::names::command::{execute, result, Call, Done};
use crate::names::pool::{block_count, State};
use crate::names::recover::recover;

/// The number of blocks in word 0 and all other words 0, whatever stood there.
pub fn clear(pool: &mut [u64]) -> Outcome {
    let Some(count) = block_count(pool.len()) else {
        return result(POOL_LENGTH, 0);
    };
    pool.copy_from_slice(&State::empty(count).words());
    result(DONE, 0)
}

pub fn check(pool: &[u64]) -> Outcome {
    only_read(pool, &Call::Check)
}

/// The key's object.
pub fn lookup(pool: &[u64], key: &[u8]) -> Outcome {
    only_read(pool, &Call::Lookup { key: key.to_vec() })
}

/// Gives the key this object, in place of the one that it had if there was one.
pub fn insert(pool: &mut [u64], key: &[u8], object: u64) -> Outcome {
    perform(pool, &Call::Insert { key: key.to_vec(), object }).0
}

/// Takes the key out; the object that it had.
pub fn delete(pool: &mut [u64], key: &[u8]) -> Outcome {
    perform(pool, &Call::Delete { key: key.to_vec() }).0
}

/// Any call: its result, and how many blocks an insert or delete needed that nothing but shortage refused.
pub fn perform(pool: &mut [u64], call: &Call) -> (Outcome, Option<usize>) {
    if *call == Call::Clear {
        return (clear(pool), None);
    }
    match on_words(pool, call) {
        Err(answer) => (result(answer, 0), None),
        Ok(done) => {
            pool.copy_from_slice(&done.state.words());
            (done.outcome, done.needed)
        }
    }
}

fn only_read(pool: &[u64], call: &Call) -> Outcome {
    on_words(pool, call).map_or_else(|answer| result(answer, 0), |done| done.outcome)
}

/// What the call comes to; if the pool's length or words are refused, the answer that says so.
fn on_words(pool: &[u64], call: &Call) -> Result<Done, u8> {
    block_count(pool.len()).ok_or(POOL_LENGTH)?;
    let before = recover(pool).ok_or(NOT_WELL_FORMED)?;
    Ok(execute(&before, call))
}
