//! Of which kinds the commands are that have to do with reservations (P6), by reference's list and
//! replies alone.

use reference::batch::{read, Command, REPLY_BYTES};
use reference::find::ANY_ENTRY;
use reference::model::{self, covering, target, Entry, Range};
use reference::recover::recover;

/// What a command is; one may be of several kinds.
#[derive(Clone, Copy, Debug, PartialEq, Eq, PartialOrd, Ord)]
pub enum Kind {
    /// Reserves: done; on an empty pool at 0; beside a head that is no node.
    Done,
    AsHead,
    BesideHead,
    /// Answer 11, and 15: an entry of order 0, a larger one, a reservation.
    TooFew,
    ByEntry,
    ByLarger,
    ByReservation,
    /// Stores over reservations: of order 0, of a larger one, with entries that go as well, short of
    /// nodes.
    StoreOver,
    StoreWider,
    StoreMixed,
    StoreShort,
    /// Erases of one, and of one as head; of an entry that leaves one as head.
    Erased,
    ErasedHead,
    LeavesHead,
    /// Loads, marks and unmarks of one.
    Loaded,
    Marked,
    /// Finds that pass one: with filter 3, with a filter of 0 to 2 beside an entry with the mark, as
    /// head.
    PassedAny,
    PassedMarks,
    PassedHead,
}

/// Every kind with its name.
pub const KINDS: [(Kind, &str); 19] = [
    (Kind::Done, "done"),
    (Kind::AsHead, "as head"),
    (Kind::BesideHead, "beside a bare head"),
    (Kind::TooFew, "answer 11"),
    (Kind::ByEntry, "15 by an entry"),
    (Kind::ByLarger, "15 by a larger one"),
    (Kind::ByReservation, "15 by a reservation"),
    (Kind::StoreOver, "stores over one"),
    (Kind::StoreWider, "wider stores"),
    (Kind::StoreMixed, "over entries too"),
    (Kind::StoreShort, "short of nodes"),
    (Kind::Erased, "erases"),
    (Kind::ErasedHead, "of the head"),
    (Kind::LeavesHead, "that leave it as head"),
    (Kind::Loaded, "loads"),
    (Kind::Marked, "marks and unmarks"),
    (Kind::PassedAny, "finds with filter 3"),
    (Kind::PassedMarks, "with 0 to 2"),
    (Kind::PassedHead, "of a reserved head"),
];

/// The kinds of all commands of a run that was done on these words, and how many of them reserve.
pub fn of_run(before: &[u64], batch: &[u8], replies: &[u8]) -> (usize, Vec<Kind>) {
    let (mut list, mut all) = (recover(before).map_or(Vec::new(), |state| state.list), Vec::new());
    let commands = read(batch).unwrap_or_default();
    for (command, reply) in commands.iter().zip(replies.chunks(REPLY_BYTES)) {
        all.extend(kinds(&list, *command, reply));
        list = after(list, *command, reply);
    }
    let reserves = commands.iter().filter(|command| matches!(command, Command::Reserve { .. }));
    (reserves.count(), all)
}

/// The list after a command with this reply.
fn after(list: Vec<Entry>, command: Command, reply: &[u8]) -> Vec<Entry> {
    match command {
        _ if reply[3] != 0 => list,
        Command::Store { index, order, word } => model::store(&list, index, order, word),
        Command::Erase { index } => model::erase(&list, index),
        Command::Mark { index, mark } => model::mark(&list, index, mark),
        Command::Unmark { index, mark } => model::unmark(&list, index, mark),
        Command::Reserve { index } => model::reserve(&list, index),
        Command::Load { .. } | Command::Find { .. } => list,
    }
}

/// The kinds of a command on this list.
pub fn kinds(list: &[Entry], command: Command, reply: &[u8]) -> Vec<Kind> {
    let answer = reply[3];
    let reserved = |index| covering(list, index).is_some_and(Entry::is_reservation);
    match command {
        Command::Reserve { index } => of_reserve(list, index, answer),
        Command::Store { index, order, .. } if [0, 11].contains(&answer) => {
            of_store(list, index, order, answer)
        }
        Command::Erase { index } => of_erase(list, index),
        Command::Load { index } if reserved(index) => vec![Kind::Loaded],
        Command::Mark { index, .. } | Command::Unmark { index, .. }
            if reserved(index) && answer == 10 =>
        {
            vec![Kind::Marked]
        }
        Command::Find { first, last, filter, .. } if [0, 12, 13].contains(&answer) => {
            of_find(list, first, reached(reply, last), filter)
        }
        _ => Vec::new(),
    }
}

fn chosen(kinds: &[(Kind, bool)]) -> Vec<Kind> {
    kinds.iter().filter(|(_, so)| *so).map(|(kind, _)| *kind).collect()
}

/// Whether what has the list is the head, and no node.
fn is_bare(list: &[Entry]) -> bool {
    list.len() == 1 && list[0].base == 0 && list[0].order == 0
}

fn of_reserve(list: &[Entry], index: u64, answer: u8) -> Vec<Kind> {
    match (answer, covering(list, index)) {
        (0, _) => chosen(&[
            (Kind::Done, true),
            (Kind::AsHead, list.is_empty() && index == 0),
            (Kind::BesideHead, is_bare(list)),
        ]),
        (11, _) => vec![Kind::TooFew],
        (_, Some(entry)) if entry.is_reservation() => vec![Kind::ByReservation],
        (_, Some(entry)) if entry.order > 0 => vec![Kind::ByLarger],
        _ => vec![Kind::ByEntry],
    }
}

fn of_store(list: &[Entry], index: u64, order: u8, answer: u8) -> Vec<Kind> {
    let (base, order) = target(list, index, order);
    let run = Entry { base, order, word: 1, marks: 0 }.range();
    let gone = list.iter().filter(|entry| entry.range().is_within(run));
    let (reserved, entries): (Vec<Entry>, Vec<Entry>) =
        gone.partition(|entry| entry.is_reservation());
    if reserved.is_empty() {
        return Vec::new();
    }
    chosen(&[
        (Kind::StoreShort, answer == 11),
        (Kind::StoreOver, answer == 0 && order == 0),
        (Kind::StoreWider, answer == 0 && order > 0),
        (Kind::StoreMixed, answer == 0 && !entries.is_empty()),
    ])
}

fn of_erase(list: &[Entry], index: u64) -> Vec<Kind> {
    let Some(gone) = covering(list, index) else { return Vec::new() };
    let left = model::erase(list, index);
    chosen(&[
        (Kind::Erased, gone.is_reservation()),
        (Kind::ErasedHead, gone.is_reservation() && is_bare(list)),
        (Kind::LeavesHead, is_bare(&left) && left[0].is_reservation()),
    ])
}

/// The last index that the steps of a find passed or stopped at.
fn reached(reply: &[u8], last: u64) -> u64 {
    let mut index = [0; 8];
    index.copy_from_slice(&reply[4..12]);
    match reply[3] {
        12 => last,
        13 => u64::from_be_bytes(index).saturating_sub(1),
        _ => u64::from_be_bytes(index),
    }
}

/// With a filter of 0 to 2, an entry with the mark in the node makes sure that the find goes down.
fn of_find(list: &[Entry], first: u64, reached: u64, filter: u8) -> Vec<Kind> {
    let range = Range { start: first.into(), end: u128::from(reached) + 1 };
    let passed = |entry: &&Entry| entry.is_reservation() && range.holds(entry.base);
    let marked = |entry: &Entry| {
        let has = |other: &&Entry| other.base / 64 == entry.base / 64 && other.order < 6;
        list.iter().filter(has).any(|other| other.marks >> filter & 1 == 1)
    };
    let mut passed = list.iter().filter(passed);
    let any = passed.clone().next().is_some();
    chosen(&[
        (Kind::PassedHead, any && is_bare(list)),
        (Kind::PassedAny, any && filter == ANY_ENTRY),
        (Kind::PassedMarks, filter < ANY_ENTRY && passed.any(marked)),
    ])
}
