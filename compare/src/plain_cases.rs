//! The plain engine (P12) with figures by hand: lengths, slices that hold no list, room, replies.

use crate::cases::{records, store, store_order, Case};
use crate::lend::Call;
use crate::plain::{library, PlainList};
use crate::plain_slices::Slices;
use xapool_host::Command;

const LAST: u64 = u64::MAX;

/// The slices of these entries (index, order, word, marks), then zeros up to the room.
fn slices(room: usize, entries: &[[u64; 4]]) -> Slices {
    [0, 1, 2, 3].map(|field| {
        let mut column: Vec<u64> = entries.iter().map(|entry| entry[field]).collect();
        column.resize(room, 0);
        column
    })
}

/// By figures: answer and number of a call, and the slices after it.
fn gives(before: Slices, call: Call, wanted: [u64; 2], after: Slices) -> Option<String> {
    let mut found = before.clone();
    let given = match library(&call, &mut found) {
        Ok(given) => given,
        Err(text) => return Some(text),
    };
    let same = [given.answer, given.number] == wanted && found == after;
    let list = PlainList { slices: before, calls: vec![call], nodes: None };
    (!same).then(|| {
        let [answer, number] = [given.answer, given.number];
        format!("{}found {answer}, {number}, {found:?}; wanted {wanted:?}, {after:?}", list.show())
    })
}

fn init(lengths: [usize; 4], answer: u64) -> Option<String> {
    let before = lengths.map(|length| vec![7; length]);
    let after = if answer == 0 { lengths.map(|length| vec![0; length]) } else { before.clone() };
    gives(before, Call::Init, [answer, 0], after)
}

fn check(slices: Slices, answer: u64) -> Option<String> {
    let wrong = gives(slices.clone(), Call::Check, [answer, 0], slices.clone());
    // A run is refused for the same, before its batch is looked at.
    let refused = || {
        let run = Call::Run { batch: vec![9], reply: 5 };
        gives(slices.clone(), run, [answer, 0], slices)
    };
    wrong.or_else(|| if answer == 0 { None } else { refused() })
}

fn run(before: &Slices, batch: Vec<u8>, reply: usize, wanted: [u64; 2]) -> Option<String> {
    gives(before.clone(), Call::Run { batch, reply }, wanted, before.clone())
}

/// By figures: answers to the commands one by one, and the entries after them.
fn leaves(
    room: usize,
    before: &[[u64; 4]],
    commands: &[(Command, u8)],
    after: &[[u64; 4]],
) -> Option<String> {
    let mut found = slices(room, before);
    let batch = records(&commands.iter().map(|(command, _)| *command).collect::<Vec<_>>());
    let call = Call::Run { batch, reply: 24 * commands.len() };
    let given = match library(&call, &mut found) {
        Ok(given) => given,
        Err(text) => return Some(text),
    };
    let answers: Vec<u8> = given.bytes.chunks(24).map(|reply| reply[3]).collect();
    let wanted: Vec<u8> = commands.iter().map(|(_, answer)| *answer).collect();
    let same = given.answer == 0 && answers == wanted && found == slices(room, after);
    let list = PlainList { slices: slices(room, before), calls: vec![call], nodes: None };
    (!same).then(|| format!("{}found {answers:?}, {found:?}; wanted {wanted:?}", list.show()))
}

/// By figures: the whole reply to the last of these commands.
fn replies(room: usize, before: &[[u64; 4]], command: Command, wanted: [u64; 5]) -> Option<String> {
    let batch = records(&[command]);
    let [answer, index, order, word, marks] = wanted;
    let head = [[batch[0] + 128, 0, 21, answer as u8].to_vec(), index.to_be_bytes().to_vec()];
    let tail = [vec![order as u8], word.to_be_bytes().to_vec(), vec![marks as u8, 0, 0]];
    let wanted = [head.concat(), tail.concat()].concat();
    let call = Call::Run { batch, reply: 24 };
    match library(&call, &mut slices(room, before)) {
        Ok(given) if given.bytes == wanted => None,
        other => Some(format!("{command}\nwanted {wanted:?}\nfound  {other:?}")),
    }
}

fn lengths() -> Vec<Case> {
    vec![
        ("plain: no room", init([0; 4], 0)),
        ("plain: room for one", init([1; 4], 0)),
        ("plain: 4,096 entries", init([4096; 4], 0)),
        ("plain: 4,097 entries", init([4097; 4], 1)),
        ("plain: the index one longer", init([4, 3, 3, 3], 1)),
        ("plain: the order one shorter", init([3, 2, 3, 3], 1)),
        ("plain: no words", init([3, 3, 0, 3], 1)),
        ("plain: the marks one longer", init([0, 0, 0, 1], 1)),
        ("plain: check of unequal slices", check([3, 3, 3, 2].map(|length| vec![0; length]), 1)),
        ("plain: check of 4,097 entries", check(slices(4097, &[]), 1)),
        ("plain: check of 4,096 zeros", check(slices(4096, &[]), 0)),
    ]
}

/// A reservation, an order of 3 with all marks, a handle, the widest and the last index.
const GOOD: [[u64; 4]; 5] =
    [[0, 0, 1030, 0], [8, 3, 5, 7], [16, 0, 4, 0], [1 << 62, 62, 7, 2], [LAST, 0, LAST, 1]];

fn with(at: usize, entry: [u64; 4]) -> Slices {
    let mut entries = GOOD;
    entries[at] = entry;
    slices(6, &entries)
}

fn behind(field: usize) -> Slices {
    let mut slices = slices(6, &GOOD[..4]);
    slices[field][5] = 1;
    slices
}

fn damaged() -> Vec<Case> {
    let whole = [[0, 63, 1, 0], [1 << 63, 63, 1, 0]];
    vec![
        ("plain: a list and a zero", check(slices(6, &GOOD), 0)),
        ("plain: a full list", check(slices(5, &GOOD), 0)),
        ("plain: all indices", check(slices(2, &whole), 0)),
        ("plain: out of order", check(with(0, [24, 0, 1030, 0]), 2)),
        ("plain: an index twice", check(with(2, [8, 0, 4, 0]), 2)),
        ("plain: overlapping by one", check(with(2, [15, 0, 4, 0]), 2)),
        ("plain: over the next", check(with(1, [8, 4, 5, 7]), 2)),
        ("plain: a crooked base", check(with(1, [9, 3, 5, 7]), 2)),
        ("plain: order 64", check(with(2, [16, 64, 4, 0]), 2)),
        ("plain: order 2^32", check(with(2, [16, 1 << 32, 4, 0]), 2)),
        ("plain: marks 8", check(with(1, [8, 3, 5, 8]), 2)),
        ("plain: marks 2^32 + 1", check(with(1, [8, 3, 5, (1 << 32) + 1]), 2)),
        ("plain: a word after a zero", check(with(2, [0, 0, 0, 0]), 2)),
        ("plain: word 0", check(with(4, [LAST, 0, 0, 1]), 2)),
        ("plain: word 2", check(with(2, [16, 0, 2, 0]), 2)),
        ("plain: word 1,026", check(with(2, [16, 0, 1026, 0]), 2)),
        ("plain: a reservation with an order", check(with(0, [0, 1, 1030, 0]), 2)),
        ("plain: a reservation with a mark", check(with(0, [0, 0, 1030, 4]), 2)),
        ("plain: an index behind", check(behind(0), 2)),
        ("plain: an order behind", check(behind(1), 2)),
        ("plain: a word behind", check(behind(2), 2)),
        ("plain: marks behind", check(behind(3), 2)),
    ]
}

fn batches() -> Vec<Case> {
    let good = slices(6, &GOOD);
    let load = records(&[Command::Load { index: 8 }]);
    vec![
        ("plain: no batch, no space", run(&good, Vec::new(), 0, [0, 0])),
        ("plain: a tag of none", run(&good, vec![9], 24, [3, 0])),
        ("plain: a record cut", run(&good, [&load[..], &[2, 0]].concat(), 48, [3, 11])),
        ("plain: 23 bytes of space", run(&good, load.clone(), 23, [4, 1])),
        ("plain: 32,769 bytes", run(&good, vec![2; 32_769], 80_000, [3, 32_768])),
        ("plain: a load alters nothing", run(&good, load, 24, [0, 1])),
    ]
}

fn commands() -> Vec<Case> {
    let reserve = |index| Command::Reserve { index };
    let erase = |index| Command::Erase { index };
    let mark = |index, mark| Command::Mark { index, mark };
    let find = |first, last, filter, budget| Command::Find { first, last, filter, budget };
    let two = [[0, 0, 3, 0], [1, 0, 1030, 0]];
    let three = [[64, 0, 5, 5], [65, 0, 7, 2], [66, 0, 1030, 0]];
    vec![
        (
            "plain: nothing fits no room",
            leaves(0, &[], &[(store(5, 3), 11), (reserve(5), 11)], &[]),
        ),
        ("plain: two of two", leaves(2, &[], &[(store(0, 3), 0), (reserve(1), 0)], &two)),
        (
            "plain: 15 before 11, 6 too",
            leaves(2, &two, &[(reserve(1), 15), (reserve(2), 11), (store(2, 0), 6)], &two),
        ),
        (
            "plain: over a reservation where full",
            leaves(2, &two, &[(store(1, 9), 0)], &[two[0], [1, 0, 9, 0]]),
        ),
        (
            "plain: one over both, then room",
            leaves(
                2,
                &two,
                &[(store_order(0, 1, 7), 0), (store(9, 9), 0), (store(10, 9), 11)],
                &[[0, 1, 7, 0], [9, 0, 9, 0]],
            ),
        ),
        (
            "plain: marks 0 and 1 are kept",
            leaves(4, &three, &[(store_order(64, 6, 9), 0)], &[[64, 6, 9, 3]]),
        ),
        (
            "plain: into a larger one",
            leaves(1, &[[64, 6, 9, 7]], &[(store(70, 11), 0)], &[[64, 6, 11, 3]]),
        ),
        (
            "plain: what is behind moves up",
            leaves(3, &three, &[(erase(64), 0), (erase(66), 0)], &[[65, 0, 7, 2]]),
        ),
        (
            "plain: marks",
            leaves(3, &three, &[(mark(65, 2), 0), (mark(66, 0), 10), (mark(64, 3), 7)], {
                &[three[0], [65, 0, 7, 6], three[2]]
            }),
        ),
        (
            "plain: all indices, twice",
            leaves(
                2,
                &[],
                &[
                    (store_order(0, 63, 3), 0),
                    (store_order(1 << 63, 63, 5), 0),
                    (store(LAST, 7), 0),
                ],
                &[[0, 63, 3, 0], [1 << 63, 63, 7, 0]],
            ),
        ),
        (
            "plain: a load has count 0",
            replies(3, &three, Command::Load { index: 64 }, [0, 64, 0, 5, 5]),
        ),
        (
            "plain: a reservation is absent",
            replies(3, &three, Command::Load { index: 66 }, [10, 0, 0, 0, 0]),
        ),
        ("plain: an erased reservation", replies(3, &three, erase(66), [0, 66, 0, 0, 0])),
        ("plain: a find of budget 1", replies(3, &three, find(0, LAST, 1, 1), [0, 65, 0, 7, 2])),
        ("plain: a find ends", replies(3, &three, find(65, LAST, 0, 1), [12, 0, 0, 0, 0])),
        (
            "plain: a find past a reservation",
            replies(3, &three, find(66, 66, 3, 1), [12, 0, 0, 0, 0]),
        ),
        ("plain: budget 0", replies(3, &three, find(0, LAST, 3, 0), [9, 0, 0, 0, 0])),
    ]
}

pub fn plain_cases() -> Vec<Case> {
    [lengths(), damaged(), batches(), commands()].concat()
}
