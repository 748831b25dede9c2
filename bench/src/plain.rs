//! The same loads in ordinary Rust, over a BTreeMap from index to word and marks. It knows order 0
//! alone, reads its commands from memory as they are and writes its replies as plain values.

use crate::loads::{batches, Load, Work};
use std::collections::BTreeMap;
use std::hint::black_box;
use std::time::Instant;
use xapool_host::{BatchBuilder, Command, Word, MOST_BATCH_BYTES};

#[derive(Clone, Copy)]
struct Entry {
    word: Word,
    marks: u8,
}

type Reply = Option<(u64, Word, u8)>;

#[derive(Default)]
struct Map {
    entries: BTreeMap<u64, Entry>,
}

impl Map {
    fn reply(&self, index: u64) -> Reply {
        self.entries.get(&index).map(|entry| (index, entry.word, entry.marks))
    }

    fn execute(&mut self, command: Command) -> Reply {
        match command {
            Command::Store { index, word, .. } => {
                let entry = self.entries.entry(index).or_insert(Entry { word, marks: 0 });
                entry.word = word;
                Some((index, entry.word, entry.marks))
            }
            Command::Load { index } => self.reply(index),
            Command::Erase { index } => {
                self.entries.remove(&index).map(|entry| (index, entry.word, entry.marks))
            }
            Command::Mark { index, mark } => {
                self.entries.get_mut(&index)?.marks |= 1 << mark;
                self.reply(index)
            }
            Command::Unmark { index, mark } => {
                self.entries.get_mut(&index)?.marks &= !(1 << mark);
                self.reply(index)
            }
            Command::Find { first, last, filter, .. } => {
                let mut range = self.entries.range(first..=last);
                let found = range.find(|(_, entry)| entry.marks >> filter & 1 == 1);
                found.map(|(index, entry)| (*index, entry.word, entry.marks))
            }
            // No load has one.
            Command::Reserve { .. } => None,
        }
    }
}

/// Nanoseconds a command; of each batch the shortest time of all repeats, as for the library.
pub fn cost(load: &Load, repeats: u32) -> f64 {
    let mut total = 0.0;
    let mut commands = 0;
    for work in &load.pools {
        let mut best = times(work);
        for _ in 1..repeats {
            best.iter_mut().zip(times(work)).for_each(|(best, now)| *best = best.min(now));
        }
        total += best.iter().sum::<f64>();
        commands += work.timed.len();
    }
    total / commands as f64
}

fn times(work: &Work) -> Vec<f64> {
    let mut map = Map::default();
    for command in &work.setup {
        map.execute(*command);
    }
    let batches = batches(&work.timed, MOST_BATCH_BYTES);
    batches.iter().map(|batch| timed_run(&mut map, batch)).collect()
}

fn timed_run(map: &mut Map, batch: &BatchBuilder) -> f64 {
    let commands: Vec<Command> = batch.commands().flatten().collect();
    let mut replies: Vec<Reply> = Vec::with_capacity(commands.len());
    let start = Instant::now();
    replies.extend(commands.iter().map(|command| map.execute(*command)));
    let time = start.elapsed().as_nanos() as f64;
    black_box(&replies);
    time
}
