//! One command on a state: its reply, the state after it, and the range it wrote.

use crate::answers::*;
use crate::batch::{Command, Reply};
use crate::find::{find, FindResult, ANY_ENTRY};
use crate::model::{
    self, covering, entry_covering, is_aligned, is_entry_word, target, Entry, Range,
};
use crate::pool::State;
use crate::tree::Tree;

/// What a command does.
#[derive(Clone, Debug, PartialEq, Eq)]
pub struct Done {
    pub reply: Reply,
    pub state: State,
    /// The addressed run of a command that wrote; none for load, find and answers other than 0.
    pub written: Option<Range>,
}

pub fn execute(state: &State, command: Command) -> Done {
    let mut done = match command {
        Command::Store { index, order, word } => store(state, index, order, word),
        Command::Load { index } => load(state, index),
        Command::Erase { index } => erase(state, index),
        Command::Mark { index, mark } => set_marks(state, index, mark, model::mark),
        Command::Unmark { index, mark } => set_marks(state, index, mark, model::unmark),
        Command::Find { first, last, filter, budget } => {
            find_reply(state, first, last, filter, budget)
        }
        Command::Reserve { index } => reserve(state, index),
    };
    done.reply.tag = command.tag() + 128;
    done
}

/// The commands in order, each on the state that the last one left.
pub fn execute_each(state: &State, commands: &[Command]) -> Vec<Done> {
    let mut state = state.clone();
    let mut all = Vec::new();
    for command in commands {
        let done = execute(&state, *command);
        state = done.state.clone();
        all.push(done);
    }
    all
}

/// The nodes needed by a store; none if its fields are refused.
pub fn needed(state: &State, index: u64, order: u8, word: u64) -> Option<usize> {
    let good = store_refusal(index, order, word).is_none();
    good.then(|| state.needed(&model::store(&state.list, index, order, word)))
}

/// The nodes needed to reserve the index; none if it is covered.
pub fn needed_to_reserve(state: &State, index: u64) -> Option<usize> {
    let free = covering(&state.list, index).is_none();
    free.then(|| state.needed(&model::reserve(&state.list, index)))
}

/// Answer 14 stands between 5 and 6 (request P4).
pub(crate) fn store_refusal(index: u64, order: u8, word: u64) -> Option<u8> {
    if order > 63 {
        Some(BAD_ORDER)
    } else if !is_aligned(index, order) {
        Some(UNALIGNED)
    } else if !is_entry_word(word) {
        Some(BAD_ENTRY)
    } else {
        None
    }
}

pub(crate) fn find_refusal(first: u64, last: u64, filter: u8, budget: u16) -> Option<u8> {
    if filter > ANY_ENTRY {
        Some(BAD_MARK)
    } else if first > last {
        Some(FIRST_ABOVE_LAST)
    } else if budget == 0 {
        Some(NO_BUDGET)
    } else {
        None
    }
}

fn store(state: &State, index: u64, order: u8, word: u64) -> Done {
    if let Some(answer) = store_refusal(index, order, word) {
        return unchanged(state, only(answer));
    }
    let (base, _) = target(&state.list, index, order);
    match state.change_to(model::store(&state.list, index, order, word)) {
        Some(after) => wrote(after, base),
        None => unchanged(state, only(TOO_FEW_NODES)),
    }
}

/// Answer 15 stands before 11 (request P6).
fn reserve(state: &State, index: u64) -> Done {
    if covering(&state.list, index).is_some() {
        return unchanged(state, only(COVERED));
    }
    match state.change_to(model::reserve(&state.list, index)) {
        Some(after) => wrote(after, index),
        None => unchanged(state, only(TOO_FEW_NODES)),
    }
}

fn load(state: &State, index: u64) -> Done {
    let found = entry_covering(&state.list, index);
    let mut reply = found.map_or(only(ABSENT), giving);
    reply.count = Tree::of(&state.list).nodes_over(index) as u16;
    unchanged(state, reply)
}

fn erase(state: &State, index: u64) -> Done {
    let Some(entry) = covering(&state.list, index) else {
        return unchanged(state, only(ABSENT));
    };
    let after = state.change_to(model::erase(&state.list, index));
    Done {
        reply: giving(entry),
        state: after.expect("an erase needs no node"),
        written: Some(entry.range()),
    }
}

type ChangeMarks = fn(&[Entry], u64, u8) -> Vec<Entry>;

fn set_marks(state: &State, index: u64, mark: u8, change: ChangeMarks) -> Done {
    if mark > 2 {
        return unchanged(state, only(BAD_MARK));
    }
    let Some(entry) = entry_covering(&state.list, index) else {
        return unchanged(state, only(ABSENT));
    };
    let after = state.change_to(change(&state.list, index, mark));
    wrote(after.expect("a mark needs no node"), entry.base)
}

fn find_reply(state: &State, first: u64, last: u64, filter: u8, budget: u16) -> Done {
    if let Some(answer) = find_refusal(first, last, filter, budget) {
        return unchanged(state, only(answer));
    }
    let found = find(&Tree::of(&state.list), first, last, filter, budget);
    let mut reply = match found.result {
        FindResult::Match(entry) => giving(entry),
        FindResult::Ended => only(ENDED),
        FindResult::PausedAt(position) => Reply { index: position, ..only(PAUSED) },
    };
    reply.count = found.steps;
    unchanged(state, reply)
}

/// A reply that gives this answer and nothing else.
pub(crate) fn only(answer: u8) -> Reply {
    Reply { answer, ..Reply::default() }
}

/// A reply that gives an entry with its base; of a reservation the base alone.
pub fn giving(entry: Entry) -> Reply {
    let Entry { base, order, word, marks } = entry;
    if entry.is_reservation() {
        return Reply { index: base, ..only(DONE) };
    }
    Reply { index: base, order, word, marks, ..only(DONE) }
}

fn unchanged(state: &State, reply: Reply) -> Done {
    Done { reply, state: state.clone(), written: None }
}

/// A command that wrote what has this base, which the reply gives as it then stands.
fn wrote(after: State, base: u64) -> Done {
    let entry = covering(&after.list, base).expect("what was just written");
    Done { reply: giving(entry), state: after, written: Some(entry.range()) }
}
