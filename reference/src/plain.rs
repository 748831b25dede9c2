//! The plain second engine (request P12): the entries as a sorted run in four slices, the same batches.
//!
//! The list is read from the slices, the commands run on it by the rules of the list alone, and the
//! slices are written afresh. What the tree adds is not here: counts are 0, and no find pauses.

use crate::answers::*;
use crate::batch::{read, Command, Reply, REPLY_BYTES};
use crate::calls::{outcome, Outcome};
use crate::command::{find_refusal, giving, only, store_refusal};
use crate::find::ANY_ENTRY;
use crate::listing::listed;
use crate::model::{self, covering, entry_covering, is_aligned, is_entry_word, Entry};

pub const MOST_ENTRIES: usize = 4096;

/// Index, order, word and marks of the entries, as they are lent.
pub type Slices<'a> = [&'a mut [u64]; 4];

/// The same, only to be read.
pub type Shared<'a> = [&'a [u64]; 4];

/// The room: how many entries the slices can hold, if they are of equal length and not too long.
pub fn room(slices: Shared) -> Option<usize> {
    let room = slices[0].len();
    let equal = slices.iter().all(|slice| slice.len() == room);
    (equal && room <= MOST_ENTRIES).then_some(room)
}

/// The list that the slices hold, if they hold one and then zeros. Slices that have no room are not looked at.
pub fn held(slices: Shared) -> Option<Vec<Entry>> {
    let room = room(slices)?;
    // The word of an entry is not 0, nor is that of a reservation: the first 0 is behind the list.
    let count = slices[2].iter().position(|word| *word == 0).unwrap_or(room);
    let zeros = slices.iter().all(|slice| slice[count..].iter().all(|word| *word == 0));
    let list: Option<Vec<Entry>> = (0..count).map(|at| entry(slices.map(|s| s[at]))).collect();
    list.filter(|list| zeros && is_sorted(list))
}

/// The entry or reservation of these four fields, if there is one.
fn entry([base, order, word, marks]: [u64; 4]) -> Option<Entry> {
    if order > 63 || marks > 7 {
        return None;
    }
    let entry = Entry { base, order: order as u8, word, marks: marks as u8 };
    let good = if entry.is_reservation() {
        entry == Entry::reservation(base)
    } else {
        is_entry_word(word) && is_aligned(base, entry.order)
    };
    good.then_some(entry)
}

/// In index order, and no index covered twice.
fn is_sorted(list: &[Entry]) -> bool {
    list.windows(2).all(|pair| pair[0].range().end <= u128::from(pair[1].base))
}

/// Writes the list and then zeros. It must have room.
fn write(slices: Slices, list: &[Entry]) {
    let [index, order, word, marks] = slices;
    for at in 0..index.len() {
        let entry = list.get(at);
        index[at] = entry.map_or(0, |entry| entry.base);
        order[at] = entry.map_or(0, |entry| entry.order.into());
        word[at] = entry.map_or(0, |entry| entry.word);
        marks[at] = entry.map_or(0, |entry| entry.marks.into());
    }
}

fn shared<'a>(slices: &'a Slices) -> Shared<'a> {
    slices.each_ref().map(|slice| &**slice)
}

/// No entries: zeros everywhere, whatever stood there.
pub fn init(slices: Slices) -> Outcome {
    if room(shared(&slices)).is_none() {
        return outcome(POOL_LENGTH, 0);
    }
    write(slices, &[]);
    outcome(DONE, 0)
}

pub fn check(slices: Shared) -> Outcome {
    match (room(slices), held(slices)) {
        (None, _) => outcome(POOL_LENGTH, 0),
        (_, None) => outcome(NOT_WELL_FORMED, 0),
        _ => outcome(DONE, 0),
    }
}

/// Runs a batch; a refused call alters neither slices nor reply.
pub fn run(slices: Slices, batch: &[u8], reply: &mut [u8]) -> Outcome {
    let Some(room) = room(shared(&slices)) else {
        return outcome(POOL_LENGTH, 0);
    };
    let Some(mut list) = held(shared(&slices)) else {
        return outcome(NOT_WELL_FORMED, 0);
    };
    let commands = match read(batch) {
        Ok(commands) => commands,
        Err(place) => return outcome(BAD_BATCH, place),
    };
    if reply.len() < REPLY_BYTES * commands.len() {
        return outcome(REPLY_SPACE, commands.len());
    }
    for (command, space) in commands.iter().zip(reply.chunks_mut(REPLY_BYTES)) {
        let (given, after) = execute(&list, room, *command);
        space.copy_from_slice(&given.bytes());
        list = after.unwrap_or(list);
    }
    write(slices, &list);
    outcome(DONE, commands.len())
}

/// The reply to a command on this list, and the list after it if that is another one.
pub fn execute(list: &[Entry], room: usize, command: Command) -> (Reply, Option<Vec<Entry>>) {
    let (mut reply, after) = match command {
        Command::Store { index, order, word } => match store_refusal(index, order, word) {
            Some(answer) => (only(answer), None),
            None => grown(model::store(list, index, order, word), room, index),
        },
        Command::Reserve { index } => match covering(list, index) {
            Some(_) => (only(COVERED), None),
            None => grown(model::reserve(list, index), room, index),
        },
        Command::Load { index } => (entry_covering(list, index).map_or(only(ABSENT), giving), None),
        Command::Erase { index } => match covering(list, index) {
            Some(entry) => (giving(entry), Some(model::erase(list, index))),
            None => (only(ABSENT), None),
        },
        Command::Mark { index, mark } => marked(list, index, mark, model::mark),
        Command::Unmark { index, mark } => marked(list, index, mark, model::unmark),
        Command::Find { first, last, filter, budget } => {
            let refused = find_refusal(first, last, filter, budget).map(only);
            (refused.unwrap_or_else(|| found(list, first, last, filter)), None)
        }
    };
    reply.tag = command.tag() + 128;
    (reply, after)
}

/// The new list, if there is room for all of it, with a reply that gives what covers the index then.
fn grown(list: Vec<Entry>, room: usize, index: u64) -> (Reply, Option<Vec<Entry>>) {
    if list.len() > room {
        return (only(TOO_FEW_NODES), None);
    }
    (giving(covering(&list, index).expect("what was just written")), Some(list))
}

type ChangeMarks = fn(&[Entry], u64, u8) -> Vec<Entry>;

fn marked(
    list: &[Entry],
    index: u64,
    mark: u8,
    change: ChangeMarks,
) -> (Reply, Option<Vec<Entry>>) {
    if mark > 2 {
        return (only(BAD_MARK), None);
    }
    if entry_covering(list, index).is_none() {
        return (only(ABSENT), None);
    }
    let after = change(list, index, mark);
    (entry_covering(&after, index).map_or(only(ABSENT), giving), Some(after))
}

/// The first entry with an index from first to last that the filter accepts; it may begin before first.
fn found(list: &[Entry], first: u64, last: u64, filter: u8) -> Reply {
    let accepted = |entry: &Entry| filter == ANY_ENTRY || entry.marks >> filter & 1 == 1;
    let mut entries = listed(list, first, last).into_iter().filter(|entry| !entry.is_reservation());
    entries.find(accepted).map_or(only(ENDED), giving)
}
