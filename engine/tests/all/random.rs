//! Random batches through both engines and reference/: replies byte for byte, and the same tree.

use crate::crowded::Crowd;
use crate::helpers::{batch_of, Beside};
use engine::REPLY_BYTES;
use reference::awkward::Commands;
use reference::batch::Command;
use reference::random::Random;

/// Mostly few nodes, so that stores fall on both sides of answer 11.
fn random_nodes(random: &mut Random) -> usize {
    let most = if random.one_in(4) { 45 } else { 14 };
    1 + random.below(most) as usize
}

/// One byte changed, left out or added, or the end cut off.
fn damage(random: &mut Random, batch: &mut Vec<u8>) {
    let place = random.below(batch.len() as u64) as usize;
    match random.below(5) {
        0 => batch[place] = random.word() as u8,
        1 => batch[place] ^= 1 << random.below(8),
        2 => batch.truncate(place),
        3 => drop(batch.remove(place)),
        _ => batch.insert(place, random.below(9) as u8),
    }
}

fn run(random: &mut Random, beside: &mut Beside, commands: &[Command]) {
    let mut batch = batch_of(commands);
    let mut space = REPLY_BYTES * commands.len();
    match random.below(24) {
        0 => damage(random, &mut batch),
        1 => space -= 1 + random.below(30).min(space as u64 - 1) as usize,
        2 => space += random.below(100) as usize,
        _ => {}
    }
    beside.run(&batch, space);
    beside.compare_trees();
}

/// Lists of batches, each list on an engine of its own, until so many commands ran; the answers.
fn run_lists(seed: u64, commands: usize, mut list: impl FnMut(&mut Random, &mut Beside)) -> Beside {
    let mut random = Random::new(seed);
    let mut all = Beside::new(1);
    while all.commands() < commands {
        let mut beside = Beside::new(random_nodes(&mut random));
        list(&mut random, &mut beside);
        all.batches += beside.batches;
        all.answers.iter_mut().zip(beside.answers).for_each(|(sum, more)| *sum += more);
        all.refused.iter_mut().zip(beside.refused).for_each(|(sum, more)| *sum += more);
    }
    println!("{} batches, answers {:?}, {:?}", all.batches, all.refused, all.answers);
    all
}

/// Every answer that a reply can give was met so many times, and 3 and 4 of calls.
fn met(all: &Beside, times: usize) {
    let never = |answer: &usize| (1..5).contains(answer);
    for answer in (0..16).filter(|answer| !never(answer)) {
        assert!(all.answers[answer] >= times, "answer {answer}: {}", all.answers[answer]);
    }
    assert!(all.refused[3] > 10 && all.refused[4] > 10);
}

/// At awkward indices: far apart, at the edges of nodes of every shift, at the very end.
#[test]
fn awkward_commands() {
    let all = run_lists(1, 400_000, |random, beside| {
        let mut source = Commands::new(Random::new(random.word()));
        for _ in 0..=random.below(6) {
            let most = if random.one_in(8) { 80 } else { 15 };
            let count = 1 + random.below(most);
            let commands: Vec<Command> = (0..count).map(|_| source.command()).collect();
            run(random, beside, &commands);
            if random.one_in(16) {
                beside.init();
            }
        }
    });
    met(&all, 300);
}

/// In few blocks, so that nodes fill, entries of several slots stand side by side, and finds pass
/// many of them.
#[test]
fn crowded_commands() {
    let all = run_lists(2, 300_000, |random, beside| {
        let mut crowd = Crowd::new(random);
        for _ in 0..4 {
            let commands: Vec<Command> = (0..60).map(|_| crowd.command(random)).collect();
            run(random, beside, &commands);
        }
    });
    met(&all, 100);
}
