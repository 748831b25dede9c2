//! The random lists of the plain engine (P12) reach what they are to reach, and show planted faults: by reference alone.

use crate::lend::{Call, Given};
use crate::plain::{by_reference, shared, PlainList};
use crate::plain_kinds::{self, Kind, KINDS};
use crate::plain_slices::{random_list, Slices};
use reference::answers::{DONE, TOO_FEW_NODES};
use reference::batch::{read, Command, REPLY_BYTES};
use reference::command::giving;
use reference::model::{covering, is_entry_word, Entry, RESERVED};
use reference::plain::{execute, held, room};
use std::collections::BTreeMap;

/// Of 6,000 lists every kind of slices and commands has some, and most batches that could are run beside the tree.
#[test]
fn every_kind_of_plain_call_is_met() {
    let mut met: BTreeMap<Kind, usize> = BTreeMap::new();
    let mut beside = 0;
    for seed in 0..6000 {
        let list = PlainList::random(seed);
        beside += usize::from(list.nodes.is_some());
        let mut slices = list.slices.clone();
        for call in &list.calls {
            let before = slices.clone();
            let given = by_reference(call, &mut slices);
            for kind in plain_kinds::of(&before, call, &given) {
                *met.entry(kind).or_default() += 1;
            }
        }
    }
    assert!(beside > 2000, "{beside}");
    for (kind, name) in KINDS {
        let least = if kind == Kind::Large { 10 } else { 100 };
        assert!(met.get(&kind).is_some_and(|count| *count >= least), "{name}: {met:?}");
    }
}

#[test]
fn a_seed_gives_the_same_plain_list_again() {
    for seed in [1, 77, 1 << 40] {
        assert_eq!(PlainList::random(seed), PlainList::random(seed));
    }
}

/// What a wrong program gives: reference's account with one fault.
fn wrong(fault: &str, call: &Call, slices: &mut Slices) -> Given {
    let mut asked = slices.clone();
    let right = by_reference(call, &mut asked);
    let list = held(shared(slices)).or_else(|| {
        room(shared(slices)).filter(|_| fault.ends_with("passed"))?;
        lenient(fault, slices)
    });
    let (Some(list), Call::Run { batch, reply }) = (&list, call) else {
        *slices = asked;
        let answer = if *call == Call::Check && list.is_some() { 0 } else { right.answer };
        return Given { answer, ..right };
    };
    let Ok(commands) = read(batch) else { return Given { answer: 3, ..right } };
    if *reply < REPLY_BYTES * commands.len() {
        return Given { answer: 4, number: commands.len() as u64, ..right };
    }
    let (mut list, mut bytes) = (list.clone(), right.bytes);
    for (command, space) in commands.iter().zip(bytes.chunks_mut(REPLY_BYTES)) {
        let (reply, after) = wrong_command(fault, &list, slices[0].len(), *command);
        space.copy_from_slice(&reply);
        list = after;
    }
    let longest = slices[0].len();
    *slices = random_list(longest, &list[..list.len().min(longest)]);
    Given { answer: 0, number: commands.len() as u64, bytes }
}

/// The list that a check which overlooks this fault takes the slices for.
fn lenient(fault: &str, slices: &Slices) -> Option<Vec<Entry>> {
    let [index, order, word, marks] = slices;
    let count = word.iter().position(|word| *word == 0).unwrap_or(word.len());
    let zeros = slices.iter().all(|slice| slice[count..].iter().all(|word| *word == 0));
    let good = |at: &usize| order[*at] < 64 && (is_entry_word(word[*at]) || word[*at] == RESERVED);
    let entry = |at: usize| {
        let (order, marks) = (order[at] as u8, (marks[at] & 7) as u8);
        Entry { base: index[at], order, word: word[at], marks }
    };
    let list: Vec<Entry> = (0..count).filter(good).map(entry).collect();
    let marked = marks.iter().any(|marks| *marks > 7);
    let apart = |pair: &[Entry]| pair[0].range().end <= u128::from(pair[1].base);
    let sorted = list.windows(2).all(apart);
    let aligned = list.iter().all(|entry| entry.range().start % (1 << entry.order) == 0);
    let whole = zeros && aligned && list.len() == count;
    let passed = if fault == "marks passed" { sorted } else { !marked };
    (whole && passed).then_some(list)
}

fn wrong_command(
    fault: &str,
    list: &[Entry],
    room: usize,
    command: Command,
) -> ([u8; REPLY_BYTES], Vec<Entry>) {
    let room = if fault == "11 one early" { room.saturating_sub(1) } else { room };
    let (mut reply, after) = execute(list, room, command);
    let mut after = after.unwrap_or_else(|| list.to_vec());
    let shorter = list.len() > after.len();
    match command {
        Command::Load { index } if fault == "a reservation loaded" => {
            if let Some(entry) = covering(list, index).filter(|entry| entry.is_reservation()) {
                reply = reference::batch::Reply { tag: 130, ..giving(entry) };
            }
        }
        Command::Store { .. } if fault == "an entry kept inside" && shorter => {
            // The last of those that were to go stays behind the new one.
            let kept = list.iter().rev().find(|entry| !after.contains(entry)).copied();
            let at = after.partition_point(|entry| entry.base <= reply.index);
            kept.into_iter().for_each(|entry| after.insert(at, entry));
        }
        Command::Store { .. } | Command::Erase { .. } if fault == "a tail one short" && shorter => {
            after.pop();
        }
        Command::Store { .. } if fault == "mark 2 kept" && reply.answer == DONE => {
            let was = covering(list, reply.index).map_or(0, |entry| entry.marks & 4);
            let at = after.partition_point(|entry| entry.base < reply.index);
            after[at].marks |= was;
            reply.marks |= was;
        }
        Command::Reserve { index } if fault == "11 before 15" && list.len() == room => {
            let full = covering(list, index).is_some();
            reply.answer = if full { TOO_FEW_NODES } else { reply.answer };
        }
        Command::Find { .. } if fault == "a count in finds" => reply.count = 1,
        _ => {}
    }
    (reply.bytes(), after)
}

/// Each of these faults shows in one list of a hundred or more often; without one there is no difference.
#[test]
fn planted_faults_of_the_plain_engine_show() {
    let faults = [
        "",
        "an entry kept inside",
        "11 one early",
        "unsorted passed",
        "marks passed",
        "a reservation loaded",
        "a tail one short",
        "mark 2 kept",
        "11 before 15",
        "a count in finds",
    ];
    let lists: Vec<PlainList> = (0..3000).map(PlainList::random).collect();
    for fault in faults {
        let alone = |list: &PlainList| PlainList { nodes: None, ..list.clone() };
        let by = |call: &Call, slices: &mut Slices| Ok(wrong(fault, call, slices));
        let differs = |list: &&PlainList| alone(list).difference_by(None, by).is_some();
        let seen = lists.iter().filter(differs).count();
        assert!(if fault.is_empty() { seen == 0 } else { seen >= 30 }, "{fault}: {seen} of 3000");
    }
}

/// Beside the tree alone: where a list agrees with reference but not with the tree, that is told.
#[test]
fn the_tree_beside_is_looked_at() {
    let compared = |seed: &u64| {
        let list = PlainList::random(*seed);
        let by = |call: &Call, slices: &mut Slices| Ok(by_reference(call, slices));
        assert_eq!(list.difference_by(None, by), None, "seed {seed}");
        list.nodes.is_some()
    };
    assert!((0..300).filter(compared).count() > 100);
}

#[test]
fn what_is_smaller_in_a_plain_list_is_another() {
    let list = PlainList::random(5);
    assert!(list.smaller().next().is_some());
}
