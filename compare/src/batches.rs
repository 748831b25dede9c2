//! Random batches: well-formed, full, damaged at every kind of place, too long, empty.

use reference::awkward::Commands as Source;
use reference::batch::Command as Plain;
use reference::random::Random;
use std::iter;
use xapool_host::{Command, Commands, Word};

/// The same command as the wrapper knows it; its record is written by the wrapper, so that
/// reference's reader is tried against an encoder that is not its own.
fn typed(command: Plain) -> Command {
    match command {
        Plain::Store { index, order, word } => Command::Store { index, order, word: Word(word) },
        Plain::Load { index } => Command::Load { index },
        Plain::Erase { index } => Command::Erase { index },
        Plain::Mark { index, mark } => Command::Mark { index, mark },
        Plain::Unmark { index, mark } => Command::Unmark { index, mark },
        Plain::Find { first, last, filter, budget } => {
            Command::Find { first, last, filter, budget }
        }
        Plain::Reserve { index } => Command::Reserve { index },
    }
}

pub fn record(command: Plain) -> Vec<u8> {
    let mut bytes = Vec::new();
    typed(command).write(&mut bytes);
    bytes
}

/// A batch for what takes batches of at most so many bytes. Full ones are rare: reference works on
/// each of their commands afresh.
pub fn random_batch(random: &mut Random, source: &mut Source, most: usize) -> Vec<u8> {
    match random.below(64) {
        0 | 1 => Vec::new(),
        2 if random.one_in((most / 8192) as u64) => full(random, source, most),
        3 => too_long(random, most),
        4 => (0..random.below(60)).map(|_| random.word() as u8).collect(),
        5..=18 => {
            let mut batch = some(random, source);
            damage(random, &mut batch);
            batch
        }
        _ => some(random, source),
    }
}

fn some(random: &mut Random, source: &mut Source) -> Vec<u8> {
    let most = match random.below(64) {
        0 => 360,
        1..=8 => 60,
        _ => 12,
    };
    let mut batch = Vec::new();
    for _ in 0..=random.below(most) {
        typed(source.command()).write(&mut batch);
    }
    batch
}

/// Exactly so many bytes in whole records.
fn full(random: &mut Random, source: &mut Source, most: usize) -> Vec<u8> {
    let mut batch = some(random, source);
    while batch.len() + 150 < most {
        let command = if random.one_in(4) { source.command() } else { Plain::Load { index: 0 } };
        typed(command).write(&mut batch);
    }
    fill(random, &mut batch, most);
    batch
}

/// Up to exactly so many bytes: records of 12 bytes until records of 11 fill the rest.
fn fill(random: &mut Random, batch: &mut Vec<u8>, most: usize) {
    while !(most - batch.len()).is_multiple_of(11) {
        Command::Mark { index: random.below(100), mark: 1 }.write(batch);
    }
    while batch.len() < most {
        Command::Load { index: random.below(100) }.write(batch);
    }
}

/// Whole records and then the byte that is too much, or some more.
fn too_long(random: &mut Random, most: usize) -> Vec<u8> {
    let mut batch = Vec::new();
    fill(random, &mut batch, most);
    let more = if random.one_in(2) { 1 } else { 1 + random.below(3000) };
    batch.extend((0..more).map(|at| if at == 0 { 2 } else { 0 }));
    batch
}

/// Where the records of a batch begin, and where the last ends.
fn places(batch: &[u8]) -> Vec<usize> {
    let mut commands = Commands::of(batch);
    let mut places = vec![0];
    while let Some(Ok(_)) = commands.next() {
        places.push(batch.len() - commands.rest().len());
    }
    places
}

/// Changes a well-formed batch at one place.
fn damage(random: &mut Random, batch: &mut Vec<u8>) {
    let places = places(batch);
    let record = random.below(places.len() as u64 - 1) as usize;
    let (from, to) = (places[record], places[record + 1]);
    let inside = from + random.below((to - from) as u64) as usize;
    match random.below(10) {
        0 => batch[from] = [0, 8, 9, 127, 128, 129, 135, 255][random.below(8) as usize],
        1 => batch[from] = 1 + random.below(7) as u8,
        2 => batch[from + 2] = batch[from + 2].wrapping_add(1),
        3 => batch[from + 2] = batch[from + 2].wrapping_sub(1),
        4 => batch[from + 1] = 1 + random.below(255) as u8,
        // A cut in the tag and length, or anywhere in the record.
        5 => batch.truncate(from + 1 + random.below(2) as usize),
        6 => batch.truncate(inside),
        7 => drop(batch.remove(inside)),
        8 => batch.insert(inside, random.word() as u8),
        _ => batch[inside] ^= 1 << random.below(8),
    }
}

/// The parts of a batch that can be left out: each good record, and what follows the last.
pub fn parts(batch: &[u8]) -> Vec<Vec<u8>> {
    let places = places(batch);
    let last = places.last().copied().unwrap_or(0);
    let records = places.windows(2).map(|ends| batch[ends[0]..ends[1]].to_vec());
    records.chain((last < batch.len()).then(|| batch[last..].to_vec())).collect()
}

/// From where to where to leave parts out: all of so many, then halves, and so on to single ones.
pub fn cuts(count: usize) -> impl Iterator<Item = (usize, usize)> {
    let sizes = iter::successors(Some(count), |size| Some(size / 2)).take_while(|size| *size > 0);
    let cut = move |size: usize, from: usize| (from, (from + size).min(count));
    sizes.flat_map(move |size| (0..count).step_by(size).map(move |from| cut(size, from)))
}

/// A batch as hex and as text commands, each line indented.
pub fn show(batch: &[u8]) -> String {
    let mut lines = format!("  batch, {} bytes: {}\n", batch.len(), hex(batch));
    for part in parts(batch) {
        match Command::read(&part) {
            Some(command) => lines += &format!("    {command}\n"),
            None => lines += &format!("    no record: {}\n", hex(&part)),
        }
    }
    lines
}

pub fn hex(bytes: &[u8]) -> String {
    bytes.iter().map(|byte| format!("{byte:02x}")).collect()
}
