//! Random batches on small pools: what must hold after each command.

use crate::helpers::{batch_of, outcome, Pool};
use crate::invariants::assert_invariants;
use reference::awkward::Commands;
use reference::batch::Command;
use reference::calls::{check, run};
use reference::command::{execute_each, needed, needed_to_reserve, Done};
use reference::part::Part;
use reference::pool::State;
use reference::random::Random;
use reference::recover::recover;

const SEED: u64 = 20_260_701;
const BATCHES: u64 = 1000;

/// Each batch on the pool that the last one left; every fourth starts from a fresh pool.
#[test]
fn random_batches() {
    println!("seed {SEED}");
    let mut random = Random::new(SEED);
    let mut pool = Pool::fresh(1);
    for round in 0..BATCHES {
        if round % 4 == 0 {
            pool = Pool::fresh(1 + random.below(26) as usize);
        }
        let mut source = Commands::new(Random::new(random.word()));
        let commands: Vec<Command> = (0..random.below(24)).map(|_| source.command()).collect();
        try_batch(&mut pool, &commands);
    }
}

fn try_batch(pool: &mut Pool, commands: &[Command]) {
    let before = pool.words.clone();
    let replies = pool.run(&batch_of(commands), commands.len());
    let mut state = recover(&before).expect("well-formed");
    let all = execute_each(&state, commands);
    for (place, done) in all.iter().enumerate() {
        let reply = done.reply.bytes();
        assert_eq!(replies[24 * place..24 * place + 24], reply);
        try_command(&state, commands[place], done);
        try_cut(&before, &commands[..=place], &done.state.words());
        state = done.state.clone();
    }
    assert_eq!(pool.words, state.words());
}

/// The words after a command are those that the batch leaves which ends just after it.
fn try_cut(before: &[u64], commands: &[Command], after: &[u64]) {
    let mut cut = before.to_vec();
    let mut reply = vec![0; 24 * commands.len()];
    let ran = run(&mut cut, &batch_of(commands), &mut reply);
    assert_eq!(ran, outcome(0, commands.len() as u64));
    assert_eq!(cut, after);
}

fn try_command(before: &State, command: Command, done: &Done) {
    let (old, new) = (before.words(), done.state.words());
    assert_eq!(check(&new), outcome(0, 0));
    assert_eq!(recover(&new).as_ref(), Some(&done.state));
    assert_invariants(&new);
    let part = Part::of(before, done);
    for place in (0..old.len()).filter(|place| !part.contains(*place)) {
        assert_eq!(old[place], new[place], "{command:?} wrote word {place}");
    }
    try_numbers(before, command, done);
}

/// The nodes that a command of good fields needs, the lowest free ones, or answer 11.
fn try_needed(before: &State, done: &Done, needed: usize) {
    let free = before.free_numbers();
    assert!(needed <= 21);
    assert_eq!(done.reply.answer, if needed > free.len() { 11 } else { 0 });
    let taken = free.iter().filter(|number| done.state.places[**number].is_some());
    let taken: Vec<usize> = taken.copied().collect();
    let expected = if needed > free.len() { &[] } else { &free[..needed] };
    assert_eq!(taken, expected);
}

/// Needed, shortage, nodes that keep their number, and the most steps of a find.
fn try_numbers(before: &State, command: Command, done: &Done) {
    let free = before.free_numbers();
    match command {
        Command::Store { index, order, word } => match needed(before, index, order, word) {
            Some(needed) => try_needed(before, done, needed),
            None => assert!([5, 6, 14].contains(&done.reply.answer)),
        },
        Command::Reserve { index } => match needed_to_reserve(before, index) {
            Some(needed) => try_needed(before, done, needed),
            None => assert_eq!(done.reply.answer, 15),
        },
        Command::Find { .. } if done.reply.answer != 13 => {
            let used = before.places.len() - free.len();
            assert!(usize::from(done.reply.count) <= 64 * used + 2);
        }
        _ => assert!(free.iter().all(|number| done.state.places[*number].is_none())),
    }
    for (old, new) in before.places.iter().zip(&done.state.places) {
        assert!(old == new || old.is_none() || new.is_none());
    }
}
