//! What a preparing (P11) is, by reference alone; it may be several.

use crate::prepares::Preparing;
use reference::answers::{BAD_BATCH, DONE, NOT_WELL_FORMED, POOL_LENGTH, REPLY_SPACE};
use reference::batch::{read, Command, MOST_BATCH_BYTES};
use reference::calls::Outcome;
use reference::command::execute;
use reference::model::{covering, Entry};
use reference::pool::State;
use reference::recover::recover;
use reference::tree::{head, Head, Node};
use std::collections::BTreeSet;
use xapool_host::layout::{count_place, SLOTS};

#[derive(Clone, Copy, Debug, PartialEq, Eq, PartialOrd, Ord)]
pub enum Kind {
    Store,
    Erase,
    Mark,
    Unmark,
    Reserve,
    NoChange,
    Long,
    Allocates,
    Frees,
    Both,
    LastNode,
    FullPool,
    HeadGrows,
    HeadShrinks,
    FromEntry,
    ToEntry,
    ReservedHead,
    Siblings,
    OverReservation,
    Mark2Goes,
    FullNode,
    NoRoom,
    OneShort,
    PairShort,
    Exact,
    More,
    OwnWithoutRoom,
    NoBytes,
    Looks,
    Several,
    Behind,
    Cut,
    Tag,
    Length,
    TooLong,
    BadBytesOfNoPool,
}

pub const KINDS: [(Kind, &str); 36] = [
    (Kind::Store, "store"),
    (Kind::Erase, "erase"),
    (Kind::Mark, "mark"),
    (Kind::Unmark, "unmark"),
    (Kind::Reserve, "reserve"),
    (Kind::NoChange, "no word changes"),
    (Kind::Long, "over 24 pairs"),
    (Kind::Allocates, "nodes allocated"),
    (Kind::Frees, "nodes freed"),
    (Kind::Both, "nodes allocated and freed"),
    (Kind::LastNode, "the last free node"),
    (Kind::FullPool, "no free node before"),
    (Kind::HeadGrows, "a higher head"),
    (Kind::HeadShrinks, "a lower head"),
    (Kind::FromEntry, "from an entry as head"),
    (Kind::ToEntry, "to an entry as head"),
    (Kind::ReservedHead, "a reservation as head"),
    (Kind::Siblings, "siblings"),
    (Kind::OverReservation, "over a reservation"),
    (Kind::Mark2Goes, "mark 2 goes"),
    (Kind::FullNode, "with a full node"),
    (Kind::NoRoom, "4 without room"),
    (Kind::OneShort, "4 by a word"),
    (Kind::PairShort, "4 by a pair"),
    (Kind::Exact, "exact room"),
    (Kind::More, "more room"),
    (Kind::OwnWithoutRoom, "5 to 15 without room"),
    (Kind::NoBytes, "3, no bytes"),
    (Kind::Looks, "3, load or find"),
    (Kind::Several, "3, several records"),
    (Kind::Behind, "3, behind a record"),
    (Kind::Cut, "3, cut"),
    (Kind::Tag, "3, tag"),
    (Kind::Length, "3, length"),
    (Kind::TooLong, "3, too long"),
    (Kind::BadBytesOfNoPool, "1 or 2, and the bytes bad"),
];

/// 0 without a node, else 1 to 11.
pub fn height(state: &State) -> usize {
    height_of(head(&state.list))
}

fn height_of(head: Head) -> usize {
    match head {
        Head::Node(node) => usize::from(node.shift) / 6 + 1,
        Head::Empty | Head::Reserved | Head::Entry(_) => 0,
    }
}

fn is_changing(command: &Command) -> bool {
    !matches!(command, Command::Load { .. } | Command::Find { .. })
}

/// By what reference gives where there is room for any script.
pub fn kinds(preparing: &Preparing, outcome: Outcome) -> Vec<Kind> {
    let Preparing { words, record, .. } = preparing;
    match outcome.answer as u8 {
        DONE => of_done(words, record, outcome.number as usize),
        BAD_BATCH => vec![of_bytes(record)],
        POOL_LENGTH | NOT_WELL_FORMED => {
            let good = matches!(read(record).as_deref(), Ok([command]) if is_changing(command));
            if good {
                Vec::new()
            } else {
                vec![Kind::BadBytesOfNoPool]
            }
        }
        _ => Vec::new(),
    }
}

/// In a slice of so many words, for which reference gives this.
pub fn room_kinds(room: usize, outcome: Outcome) -> Vec<Kind> {
    let (answer, number) = (outcome.answer as u8, outcome.number as usize);
    let all = [
        (Kind::NoRoom, answer == REPLY_SPACE && room == 0),
        (Kind::OneShort, answer == REPLY_SPACE && room + 1 == number),
        (Kind::PairShort, answer == REPLY_SPACE && room + 2 == number),
        (Kind::Exact, answer == DONE && room == number && number > 0),
        (Kind::More, answer == DONE && room > number),
        (Kind::OwnWithoutRoom, answer > REPLY_SPACE && room == 0),
    ];
    all.into_iter().filter(|(_, so)| *so).map(|(kind, _)| kind).collect()
}

/// What is wrong with bytes that are answered 3.
fn of_bytes(bytes: &[u8]) -> Kind {
    match read(bytes) {
        _ if bytes.is_empty() => Kind::NoBytes,
        Ok(commands) if commands.len() == 1 => Kind::Looks,
        Ok(_) => Kind::Several,
        Err(MOST_BATCH_BYTES) if bytes.len() > MOST_BATCH_BYTES => Kind::TooLong,
        Err(0) if !(1..=7).contains(&bytes[0]) => Kind::Tag,
        Err(0) => match bytes.get(1..3) {
            Some([0, length]) if *length == [17, 8, 8, 9, 9, 19, 8][usize::from(bytes[0]) - 1] => {
                Kind::Cut
            }
            Some(_) => Kind::Length,
            None => Kind::Cut,
        },
        Err(_) => Kind::Behind,
    }
}

/// What was done: a record of one command, with a script of so many words.
fn of_done(words: &[u64], record: &[u8], script: usize) -> Vec<Kind> {
    let Some(before) = recover(words) else { return Vec::new() };
    let Ok([command]) = read(record).as_deref().map(|all| <[Command; 1]>::try_from(all).unwrap())
    else {
        return Vec::new();
    };
    let after = execute(&before, command).state;
    let nodes =
        |state: &State| -> BTreeSet<Node> { state.places.iter().copied().flatten().collect() };
    let (old, new) = (nodes(&before), nodes(&after));
    let (allocates, frees) = (new.difference(&old).count() > 0, old.difference(&new).count() > 0);
    let heads = [&before, &after].map(|state| head(&state.list));
    let heights = heads.map(height_of);
    let free = [&before, &after].map(|state| state.free_numbers().len());
    let gone: Vec<Entry> =
        before.list.iter().filter(|entry| !after.list.contains(entry)).copied().collect();
    let come: Vec<Entry> =
        after.list.iter().filter(|entry| !before.list.contains(entry)).copied().collect();
    let is_store = matches!(command, Command::Store { .. });
    let lost = |entry: &Entry| {
        let now = covering(&after.list, entry.base);
        entry.marks & 4 > 0 && now.is_some_and(|now| now.marks & 4 == 0)
    };
    let all = [
        (Kind::Store, is_store),
        (Kind::Erase, matches!(command, Command::Erase { .. })),
        (Kind::Mark, matches!(command, Command::Mark { .. })),
        (Kind::Unmark, matches!(command, Command::Unmark { .. })),
        (Kind::Reserve, matches!(command, Command::Reserve { .. })),
        (Kind::NoChange, script == 0),
        (Kind::Long, script > 48),
        (Kind::Allocates, allocates),
        (Kind::Frees, frees),
        (Kind::Both, allocates && frees),
        (Kind::LastNode, free[0] > 0 && free[1] == 0),
        (Kind::FullPool, free[0] == 0),
        (Kind::HeadGrows, heights[0] > 0 && heights[1] > heights[0]),
        (Kind::HeadShrinks, heights[1] > 0 && heights[1] < heights[0]),
        (Kind::FromEntry, matches!(heads[0], Head::Entry(_)) && heights[1] > 0),
        (Kind::ToEntry, heights[0] > 0 && matches!(heads[1], Head::Entry(_))),
        (Kind::ReservedHead, heads.contains(&Head::Reserved)),
        (Kind::Siblings, gone.iter().chain(&come).any(|entry| entry.order % 6 > 0)),
        (Kind::OverReservation, is_store && gone.iter().any(|entry| entry.is_reservation())),
        (Kind::Mark2Goes, is_store && gone.iter().any(lost)),
        (
            Kind::FullNode,
            (0..before.places.len()).any(|node| words[count_place(node)] == SLOTS as u64),
        ),
    ];
    all.into_iter().filter(|(_, so)| *so).map(|(kind, _)| kind).collect()
}
