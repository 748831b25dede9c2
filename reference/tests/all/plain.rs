//! The plain engine (request P12): what its slices hold, what it refuses, where it is short, and its replies beside the tree's.

use crate::helpers::{
    batch_of, bytes_of, gives, loads_and_marks, only, outcome, Said, JUNK, LAST, UNTOUCHED,
};
use reference::awkward::Commands;
use reference::batch::Command;
use reference::calls::{self, Outcome};
use reference::plain::{check, init, run, MOST_ENTRIES};
use reference::pool::State;
use reference::random::Random;

/// Index, order, word and marks.
type Slices = [Vec<u64>; 4];

/// The slices of these entries, then zeros up to the room.
fn slices(room: usize, entries: &[[u64; 4]]) -> Slices {
    let column = |field: usize| {
        let mut column: Vec<u64> = entries.iter().map(|entry| entry[field]).collect();
        column.resize(room, 0);
        column
    };
    [0, 1, 2, 3].map(column)
}

fn checked(slices: &Slices) -> Outcome {
    check(slices.each_ref().map(Vec::as_slice))
}

fn ran(slices: &mut Slices, batch: &[u8], reply: &mut [u8]) -> Outcome {
    run(slices.each_mut().map(Vec::as_mut_slice), batch, reply)
}

/// Refused with this: nothing is altered, whatever the batch is.
fn refused(slices: &Slices, batch: &[u8], space: usize, wanted: Outcome) {
    let (mut after, mut reply) = (slices.clone(), vec![UNTOUCHED; space]);
    assert_eq!(ran(&mut after, batch, &mut reply), wanted, "{slices:?}");
    assert_eq!((&after, reply), (slices, vec![UNTOUCHED; space]));
}

/// One command, and its whole reply.
fn expect(slices: &mut Slices, command: Command, said: Said) {
    let record = bytes_of(command);
    let mut reply = vec![UNTOUCHED; 30];
    assert_eq!(ran(slices, &record, &mut reply), outcome(0, 1));
    assert_eq!(reply[..24], said.bytes(record[0]), "{command:?}");
    assert_eq!(reply[24..], [UNTOUCHED; 6]);
    assert_eq!(checked(slices), outcome(0, 0));
}

fn store(index: u64, order: u8, word: u64) -> Command {
    Command::Store { index, order, word }
}

fn find(first: u64, last: u64, filter: u8, budget: u16) -> Command {
    Command::Find { first, last, filter, budget }
}

#[test]
fn lengths() {
    for (lengths, answer) in [
        ([0, 0, 0, 0], 0),
        ([1, 1, 1, 1], 0),
        ([4096, 4096, 4096, 4096], 0),
        ([4097, 4097, 4097, 4097], 1),
        ([0, 0, 0, 1], 1),
        ([3, 3, 2, 3], 1),
        ([4, 3, 3, 3], 1),
        ([3, 4, 3, 3], 1),
        ([4096, 4096, 4096, 4097], 1),
    ] {
        let junk = lengths.map(|length| vec![JUNK; length]);
        let mut slices = junk.clone();
        assert_eq!(init(slices.each_mut().map(Vec::as_mut_slice)), outcome(answer, 0));
        let wanted = if answer == 0 { lengths.map(|length| vec![0; length]) } else { junk };
        assert_eq!(slices, wanted, "{lengths:?}");
        assert_eq!(checked(&slices), outcome(answer, 0));
        if answer == 1 {
            refused(&slices, &[9], 0, outcome(1, 0));
        }
    }
    assert_eq!(MOST_ENTRIES, 4096);
}

/// A list of every kind of entry: a reservation, an order of 3, marks, the last indices.
const GOOD: [[u64; 4]; 5] =
    [[0, 0, 1030, 0], [8, 3, 5, 7], [16, 0, 4, 0], [1 << 62, 62, 7, 2], [LAST, 0, u64::MAX, 1]];

#[test]
fn a_list_and_then_zeros() {
    for room in [5, 6, 4096] {
        assert_eq!(checked(&slices(room, &GOOD)), outcome(0, 0));
        assert_eq!(checked(&slices(room, &GOOD[..2])), outcome(0, 0));
        assert_eq!(checked(&slices(room, &[])), outcome(0, 0));
    }
    let whole = [[0, 63, 1, 0], [1 << 63, 63, 1, 0]];
    assert_eq!(checked(&slices(2, &whole)), outcome(0, 0));
}

#[test]
fn anything_else_is_2() {
    let with = |at: usize, entry: [u64; 4]| {
        let mut entries = GOOD;
        entries[at] = entry;
        entries
    };
    for (what, entries) in [
        ("out of order", with(0, [24, 0, 1030, 0])),
        ("twice", with(2, [8, 0, 4, 0])),
        ("overlapping", with(2, [15, 0, 4, 0])),
        ("over the next", with(1, [8, 4, 5, 7])),
        ("a crooked base", with(1, [9, 3, 5, 7])),
        ("order 64", with(2, [16, 64, 4, 0])),
        ("an order of 2^32", with(2, [16, 1 << 32, 4, 0])),
        ("marks 8", with(1, [8, 3, 5, 8])),
        ("marks of 2^32 + 1", with(1, [8, 3, 5, (1 << 32) + 1])),
        ("a hole", with(2, [0, 0, 0, 0])),
        ("word 0", with(2, [16, 0, 0, 0])),
        ("word 2", with(2, [16, 0, 2, 0])),
        ("word 1,034", with(2, [16, 0, 1034, 0])),
        ("a reservation with an order", with(0, [0, 1, 1030, 0])),
        ("a reservation with a mark", with(0, [0, 0, 1030, 1])),
    ] {
        assert_eq!(checked(&slices(6, &entries)), outcome(2, 0), "{what}");
        refused(&slices(6, &entries), &[9], 0, outcome(2, 0));
    }
    for field in 0..4 {
        for at in [5, 6] {
            let mut behind = slices(7, &GOOD);
            behind[field][at] = 1;
            // A word behind the list would be an entry with base 0.
            assert_eq!(checked(&behind), outcome(2, 0), "field {field} of place {at}");
        }
    }
}

#[test]
fn bad_batches_and_short_reply_space() {
    let mut good = slices(6, &GOOD);
    let load = bytes_of(Command::Load { index: 8 });
    refused(&good, &[9], 24, outcome(3, 0));
    refused(&good, &[&load[..], &[2, 0]].concat(), 48, outcome(3, 11));
    refused(&good, &load, 23, outcome(4, 1));
    refused(&good, &[loads_and_marks(2968, 10), vec![2]].concat(), 80_000, outcome(3, 32_768));
    let mut reply = vec![0; 71_472];
    assert_eq!(ran(&mut good, &loads_and_marks(2968, 10), &mut reply), outcome(0, 2978));
    assert_eq!(ran(&mut good, &[], &mut []), outcome(0, 0));
}

#[test]
fn no_room_is_11_exactly() {
    let mut none = slices(0, &[]);
    expect(&mut none, store(5, 0, 3), only(11));
    expect(&mut none, Command::Reserve { index: 5 }, only(11));
    expect(&mut none, store(5, 3, 3), only(14));
    expect(&mut none, find(0, LAST, 3, 1), only(12));
    let mut two = slices(2, &[]);
    expect(&mut two, store(0, 0, 3), gives(0, 0, 3, 0));
    expect(&mut two, Command::Reserve { index: 1 }, gives(1, 0, 0, 0));
    let full = two.clone();
    expect(&mut two, store(2, 0, 3), only(11));
    expect(&mut two, Command::Reserve { index: 2 }, only(11));
    // 15 is tested before 11.
    expect(&mut two, Command::Reserve { index: 1 }, only(15));
    // Order and word are refused before the room is looked at.
    expect(&mut two, store(2, 64, 3), only(5));
    expect(&mut two, store(2, 0, 0), only(6));
    assert_eq!(two, full);
    // As many go as come, or more: there is room.
    expect(&mut two, store(1, 0, 5), gives(1, 0, 5, 0));
    expect(&mut two, store(0, 2, 7), gives(0, 2, 7, 0));
    assert_eq!(two, slices(2, &[[0, 2, 7, 0]]));
    expect(&mut two, store(1 << 63, 63, 9), gives(1 << 63, 63, 9, 0));
    expect(&mut two, store(4, 0, 9), only(11));
    expect(&mut two, store(0, 63, 9), gives(0, 63, 9, 0));
}

#[test]
fn marks_and_erases() {
    let mut list = slices(8, &[[64, 0, 5, 5], [65, 0, 7, 2], [66, 0, 1030, 0], [128, 0, 9, 7]]);
    expect(&mut list, Command::Mark { index: 66, mark: 0 }, only(10));
    expect(&mut list, Command::Load { index: 66 }, only(10));
    expect(&mut list, Command::Mark { index: 65, mark: 3 }, only(7));
    expect(&mut list, Command::Unmark { index: 64, mark: 2 }, gives(64, 0, 5, 1));
    expect(&mut list, Command::Mark { index: 64, mark: 2 }, gives(64, 0, 5, 5));
    // Marks 0 and 1 are handed on, mark 2 is not; the reservation goes.
    expect(&mut list, store(64, 6, 11), gives(64, 6, 11, 3));
    assert_eq!(list, slices(8, &[[64, 6, 11, 3], [128, 0, 9, 7]]));
    expect(&mut list, store(70, 0, 13), gives(64, 6, 13, 3));
    expect(&mut list, Command::Erase { index: 127 }, gives(64, 6, 13, 3));
    expect(&mut list, Command::Reserve { index: 0 }, gives(0, 0, 0, 0));
    expect(&mut list, Command::Erase { index: 0 }, gives(0, 0, 0, 0));
    expect(&mut list, Command::Erase { index: 0 }, only(10));
    assert_eq!(list, slices(8, &[[128, 0, 9, 7]]));
}

#[test]
fn finds_never_pause() {
    let mut list = slices(4, &[[0, 0, 3, 0], [1, 0, 1030, 0], [64, 6, 5, 2], [LAST, 0, 7, 4]]);
    expect(&mut list, find(1, LAST, 3, 1), gives(64, 6, 5, 2));
    expect(&mut list, find(127, 127, 1, 1), gives(64, 6, 5, 2));
    expect(&mut list, find(127, 127, 0, 9), only(12));
    expect(&mut list, find(65, LAST, 2, 1), gives(LAST, 0, 7, 4));
    expect(&mut list, find(1, 63, 3, u16::MAX), only(12));
    expect(&mut list, find(1, 1, 3, 1), only(12));
    expect(&mut list, find(0, LAST, 3, 0), only(9));
    expect(&mut list, find(1, 0, 3, 0), only(8));
    expect(&mut list, find(1, 0, 4, 0), only(7));
}

/// Replies without the counts of load and find.
fn uncounted(replies: &[u8]) -> Vec<u8> {
    let mut replies = replies.to_vec();
    for reply in replies.chunks_mut(24).filter(|reply| [130, 134].contains(&reply[0])) {
        reply[22..].fill(0);
    }
    replies
}

/// With the largest budget, so that the tree's find does not pause.
fn unhurried(command: Command) -> Command {
    match command {
        Command::Find { first, last, filter, budget: 1.. } => find(first, last, filter, u16::MAX),
        other => other,
    }
}

#[test]
fn replies_are_the_trees_while_neither_is_short_and_no_find_pauses() {
    let mut compared = 0;
    for seed in 0..300 {
        let mut commands = Commands::new(Random::new(seed));
        let (mut pool, mut list) = (State::empty(400).words(), slices(400, &[]));
        for _ in 0..40 {
            let batch: Vec<Command> = (0..3).map(|_| unhurried(commands.command())).collect();
            let batch = batch_of(&batch);
            let [mut by_tree, mut by_list] = [vec![0; 72], vec![0; 72]];
            let one = calls::run(&mut pool, &batch, &mut by_tree);
            assert_eq!(one, ran(&mut list, &batch, &mut by_list));
            if by_tree.chunks(24).any(|reply| [11, 13].contains(&reply[3])) {
                break;
            }
            assert_eq!(uncounted(&by_tree), by_list, "seed {seed}");
            compared += 1;
        }
    }
    assert!(compared > 11_000, "only {compared} batches");
}
