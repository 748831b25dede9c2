//! One call on a state: its result, the state after it, and what it needed.

use crate::answers::*;
use crate::calls::Outcome;
use crate::model::is_entry_word;
use crate::names::keys::{delete, insert, Key, List};
use crate::names::pool::State;

/// A call on a pool of good length, with its key's bytes as they were lent.
#[derive(Clone, Debug, PartialEq, Eq)]
pub enum Call {
    Clear,
    Check,
    Lookup { key: Vec<u8> },
    Insert { key: Vec<u8>, object: u64 },
    Delete { key: Vec<u8> },
}

/// What a call does to a well-formed pool.
#[derive(Clone, Debug, PartialEq, Eq)]
pub struct Done {
    pub outcome: Outcome,
    pub state: State,
    /// How many blocks the change of the list takes, of an insert or a delete that nothing else refuses.
    pub needed: Option<usize>,
}

pub fn execute(state: &State, call: &Call) -> Done {
    match call {
        Call::Clear => {
            let state = State::empty(state.places.len());
            Done { outcome: result(DONE, 0), state, needed: None }
        }
        Call::Check => unchanged(state, DONE, 0),
        Call::Lookup { key } => match Key::new(key) {
            None => unchanged(state, BAD_KEY, 0),
            Some(key) => match state.list.get(&key) {
                None => unchanged(state, ABSENT, 0),
                Some(object) => unchanged(state, DONE, *object),
            },
        },
        Call::Insert { key, object } => match Key::new(key) {
            None => unchanged(state, BAD_KEY, 0),
            Some(_) if !is_entry_word(*object) => unchanged(state, BAD_ENTRY, 0),
            Some(key) => changed(state, insert(&state.list, key, *object), *object),
        },
        Call::Delete { key } => match Key::new(key) {
            None => unchanged(state, BAD_KEY, 0),
            Some(key) => match state.list.get(&key) {
                None => unchanged(state, ABSENT, 0),
                Some(object) => changed(state, delete(&state.list, key), *object),
            },
        },
    }
}

pub(crate) fn result(answer: u8, object: u64) -> Outcome {
    Outcome { answer: answer.into(), number: object }
}

fn unchanged(state: &State, answer: u8, object: u64) -> Done {
    Done { outcome: result(answer, object), state: state.clone(), needed: None }
}

/// The new list with this object as the result, if there are blocks enough; else the old one.
fn changed(state: &State, list: List, object: u64) -> Done {
    let needed = Some(state.needed(&list));
    match state.change_to(list) {
        Some(state) => Done { outcome: result(DONE, object), state, needed },
        None => Done { needed, ..unchanged(state, TOO_FEW_NODES, 0) },
    }
}
