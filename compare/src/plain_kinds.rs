//! Of which kinds the calls of the plain engine (P12) are, by reference alone.

use crate::lend::{Call, Given};
use crate::plain::shared;
use crate::plain_slices::Slices;
use reference::batch::{read, Command, REPLY_BYTES};
use reference::model::{covering, is_entry_word, Entry, RESERVED};
use reference::plain::{execute, held, MOST_ENTRIES};

/// What a call, its slices or one of its commands is; it may be several.
#[derive(Clone, Copy, Debug, PartialEq, Eq, PartialOrd, Ord)]
pub enum Kind {
    /// Slices that are refused: lengths, then what is wrong with an entry, with two, and behind them.
    Unequal,
    TooLong,
    LargeOrder,
    LargeMarks,
    BadWord,
    Crooked,
    ReservedOrder,
    ReservedMark,
    Unsorted,
    Overlapping,
    Hole,
    Behind,
    /// Good slices: no room, full, more than a thousand entries.
    NoRoom,
    Full,
    Large,
    /// Stores: beside the others, over one, over several, into a larger one, short, the last that there is room for, of an
    /// order of 32 or more, at or above 2^63.
    StoreNew,
    StoreOver,
    StoreSeveral,
    StoreInto,
    StoreShort,
    StoreLast,
    StoreWide,
    StoreHigh,
    /// Reserves: done, short, covered though it would be short.
    Reserved,
    ReserveShort,
    Covered,
    /// Erases, of an entry that others are behind, and of a reservation.
    Erased,
    ErasedInside,
    ErasedReserved,
    /// Loads and marks of a reservation; finds: of an entry that begins before first, past a reservation, ended.
    MetReserved,
    FoundBefore,
    PassedReserved,
    Ended,
}

pub const KINDS: [(Kind, &str); 33] = [
    (Kind::Unequal, "unequal"),
    (Kind::TooLong, "over 4,096"),
    (Kind::LargeOrder, "order above 63"),
    (Kind::LargeMarks, "marks above 7"),
    (Kind::BadWord, "bad words"),
    (Kind::Crooked, "crooked bases"),
    (Kind::ReservedOrder, "reservations with an order"),
    (Kind::ReservedMark, "with a mark"),
    (Kind::Unsorted, "out of order"),
    (Kind::Overlapping, "overlapping"),
    (Kind::Hole, "a word after a zero"),
    (Kind::Behind, "other fields behind"),
    (Kind::NoRoom, "no room"),
    (Kind::Full, "full"),
    (Kind::Large, "above 1,000 entries"),
    (Kind::StoreNew, "stores beside others"),
    (Kind::StoreOver, "over one"),
    (Kind::StoreSeveral, "over several"),
    (Kind::StoreInto, "into a larger one"),
    (Kind::StoreShort, "short"),
    (Kind::StoreLast, "that fill the room"),
    (Kind::StoreWide, "of order 32 or more"),
    (Kind::StoreHigh, "from 2^63 on"),
    (Kind::Reserved, "reserves"),
    (Kind::ReserveShort, "short"),
    (Kind::Covered, "15 where full"),
    (Kind::Erased, "erases"),
    (Kind::ErasedInside, "with others behind"),
    (Kind::ErasedReserved, "of a reservation"),
    (Kind::MetReserved, "10 of a reservation"),
    (Kind::FoundBefore, "finds of what began before"),
    (Kind::PassedReserved, "past a reservation"),
    (Kind::Ended, "ended"),
];

fn chosen(kinds: &[(Kind, bool)]) -> Vec<Kind> {
    kinds.iter().filter(|(_, so)| *so).map(|(kind, _)| *kind).collect()
}

/// The kinds of a call on these slices, by what reference gave.
pub fn of(slices: &Slices, call: &Call, given: &Given) -> Vec<Kind> {
    let room = slices[0].len();
    let Some(list) = held(shared(slices)) else { return of_damaged(slices) };
    let mut kinds = chosen(&[
        (Kind::NoRoom, room == 0),
        (Kind::Full, room > 0 && list.len() == room),
        (Kind::Large, list.len() > 1000),
    ]);
    if let (Call::Run { batch, .. }, 0) = (call, given.answer) {
        kinds.extend(of_run(list, room, batch, &given.bytes));
    }
    kinds
}

fn of_damaged(slices: &Slices) -> Vec<Kind> {
    let room = slices[0].len();
    if slices.iter().any(|slice| slice.len() != room) {
        return vec![Kind::Unequal];
    }
    if room > MOST_ENTRIES {
        return vec![Kind::TooLong];
    }
    let [index, order, word, marks] = slices;
    let count = word.iter().position(|word| *word == 0).unwrap_or(room);
    let any = |is: &dyn Fn(usize) -> bool| (0..count).any(is);
    let reserved = |at: usize| word[at] == RESERVED;
    let block = |at: usize| 1u128 << order[at].min(64);
    let end = |at: usize| u128::from(index[at]) + block(at);
    let pair = |is: &dyn Fn(usize) -> bool| (1..count).any(is);
    let behind = |slice: &[u64]| slice[count..].iter().any(|word| *word != 0);
    chosen(&[
        (Kind::LargeOrder, any(&|at| order[at] > 63)),
        (Kind::LargeMarks, any(&|at| marks[at] > 7)),
        (Kind::BadWord, any(&|at| !reserved(at) && !is_entry_word(word[at]))),
        (Kind::Crooked, any(&|at| !u128::from(index[at]).is_multiple_of(block(at)))),
        (Kind::ReservedOrder, any(&|at| reserved(at) && order[at] != 0)),
        (Kind::ReservedMark, any(&|at| reserved(at) && marks[at] != 0)),
        (Kind::Unsorted, pair(&|at| index[at] < index[at - 1])),
        (
            Kind::Overlapping,
            pair(&|at| index[at] >= index[at - 1] && u128::from(index[at]) < end(at - 1)),
        ),
        (Kind::Hole, behind(word)),
        (Kind::Behind, behind(index) || behind(order) || behind(marks)),
    ])
}

fn of_run(mut list: Vec<Entry>, room: usize, batch: &[u8], replies: &[u8]) -> Vec<Kind> {
    let mut all = Vec::new();
    for (command, reply) in read(batch).unwrap_or_default().iter().zip(replies.chunks(REPLY_BYTES))
    {
        let after = execute(&list, room, *command).1.unwrap_or_else(|| list.clone());
        all.extend(of_command(&list, &after, room, *command, reply));
        list = after;
    }
    all
}

fn of_command(
    list: &[Entry],
    after: &[Entry],
    room: usize,
    command: Command,
    reply: &[u8],
) -> Vec<Kind> {
    let answer = reply[3];
    let reserved = |index| covering(list, index).is_some_and(Entry::is_reservation);
    match command {
        Command::Store { index, order, .. } => {
            of_store(list, after, room, [index, order.into()], answer)
        }
        Command::Reserve { index: _ } => chosen(&[
            (Kind::Reserved, answer == 0),
            (Kind::ReserveShort, answer == 11),
            (Kind::Covered, answer == 15 && list.len() == room),
        ]),
        Command::Erase { index } if answer == 0 => chosen(&[
            (Kind::Erased, true),
            (Kind::ErasedInside, list.last().is_some_and(|last| last.base > index)),
            (Kind::ErasedReserved, reserved(index)),
        ]),
        Command::Load { index } | Command::Mark { index, .. } | Command::Unmark { index, .. } => {
            chosen(&[(Kind::MetReserved, answer == 10 && reserved(index))])
        }
        Command::Find { first, last, .. } => {
            let base = reply[4..12].iter().fold(0, |base, byte| base << 8 | u64::from(*byte));
            let reached = if answer == 0 { base } else { last };
            let passes = |entry: &Entry| {
                entry.is_reservation() && first <= entry.base && entry.base <= reached
            };
            chosen(&[
                (Kind::FoundBefore, answer == 0 && base < first),
                (Kind::PassedReserved, [0, 12].contains(&answer) && list.iter().any(passes)),
                (Kind::Ended, answer == 12),
            ])
        }
        _ => Vec::new(),
    }
}

fn of_store(list: &[Entry], after: &[Entry], room: usize, at: [u64; 2], answer: u8) -> Vec<Kind> {
    let [index, order] = at;
    if answer == 11 {
        return vec![Kind::StoreShort];
    }
    if answer != 0 {
        return Vec::new();
    }
    let into = covering(list, index).is_some_and(|entry| u64::from(entry.order) > order);
    let gone = list.len() + 1 - after.len();
    chosen(&[
        (Kind::StoreNew, gone == 0),
        (Kind::StoreOver, gone == 1 && !into),
        (Kind::StoreSeveral, gone > 1),
        (Kind::StoreInto, into),
        (Kind::StoreLast, gone == 0 && after.len() == room),
        (Kind::StoreWide, order >= 32),
        (Kind::StoreHigh, index >> 63 == 1),
    ])
}
