//! Lists: what an entry costs, of all entries of a pool and of a narrow range of it.

use crate::finds::runs;
use crate::library::Library;
use crate::loads::*;
use crate::measure::{empty_pool, longest_batch, nanoseconds, Time};
use std::collections::BTreeMap;
use std::hint::black_box;
use std::time::Instant;
use xapool_host::{Command, Entry, Marks, Word, LISTED_BYTES, REPLY_BYTES};

/// A range of a pool, the bytes that its list must have, and the shortest times by each library.
pub struct Trial {
    pub about: String,
    pub entries: u64,
    words: Vec<u64>,
    range: (u64, u64),
    expected: Vec<u8>,
    map: BTreeMap<u64, Entry>,
    best: Vec<Time>,
}

/// Indices in the midst of a pool, over more than one node.
const NARROW: u64 = 100;
const FEW: u64 = 1000;

/// All of a small pool and of one with so many dense entries, then parts of that one, then all of
/// entries that have siblings. Nothing where a library has no such call.
pub fn trials(libraries: &[&dyn Library], indices: u64) -> Result<Vec<Trial>, String> {
    let mut none = Vec::new();
    if libraries.iter().any(|library| library.list(&[], 0, 0, &mut none).is_none()) {
        return Ok(Vec::new());
    }
    let dense = |count: u64| -> Vec<(u64, u8)> { (0..count).map(|index| (index, 0)).collect() };
    let (few, all, runs) = (dense(FEW), dense(indices), runs(&mut Random(21), indices));
    let (middle, width) = (indices / 2, NARROW.min(indices / 2));
    let everything = (0, u64::MAX);
    let cases = [
        (format!("all of {FEW} dense entries"), few, everything),
        (format!("all of {indices} dense entries"), all.clone(), everything),
        (format!("{width} of {indices} dense entries"), all.clone(), (middle, middle + width - 1)),
        (format!("1 of {indices} dense entries"), all, (middle, middle)),
        (format!("all of {} entries of orders 0 to 5", runs.len()), runs, everything),
    ];
    let trial = |(about, entries, range)| Trial::new(libraries, about, entries, range);
    cases.into_iter().map(trial).collect()
}

impl Trial {
    fn new(
        libraries: &[&dyn Library],
        about: String,
        entries: Vec<(u64, u8)>,
        range: (u64, u64),
    ) -> Result<Trial, String> {
        let all: Vec<Entry> = entries.into_iter().map(entry).collect();
        let listed = || all.iter().filter(|e| e.base <= range.1 && range.0 <= e.last());
        Ok(Trial {
            about,
            entries: listed().count() as u64,
            words: filled(libraries[0], &all)?,
            range,
            expected: listed().flat_map(|entry| entry.listed()).collect(),
            map: all.iter().map(|entry| (entry.base, *entry)).collect(),
            best: vec![Time::LONGEST; libraries.len()],
        })
    }

    /// Once by each library, in turns that begin with another in each round.
    pub fn round(&mut self, libraries: &[&dyn Library], round: u32) -> Result<(), String> {
        for turn in 0..libraries.len() {
            let at = (round as usize + turn) % libraries.len();
            let time = self.time(libraries[at]).map_err(|e| format!("{}: {e}", self.about))?;
            self.best[at] = self.best[at].least(time);
        }
        Ok(())
    }

    /// The list, and the check that it begins with, timed by itself just before.
    fn time(&self, library: &dyn Library) -> Result<Time, String> {
        let mut buffer = vec![0; self.expected.len()];
        // Not timed: so the words are as near for the check as for the list after it.
        let _ = library.check(&self.words);
        let start = Instant::now();
        let checked = library.check(&self.words);
        let check = nanoseconds(start);
        let (first, last) = self.range;
        let start = Instant::now();
        let listed = library.list(&self.words, first, last, &mut buffer);
        let run = nanoseconds(start);
        let number = listed.filter(|listed| listed.answer == 0).map(|listed| listed.number);
        if checked.answer != 0 || number != Some(self.entries) || buffer != self.expected {
            return Err(format!("another list, or none: {checked:?}, {listed:?}"));
        }
        Ok(Time { run, check })
    }

    /// Nanoseconds of a call by each library, without the check.
    pub fn costs(&self) -> Vec<f64> {
        self.best.iter().map(|time| time.run - time.check).collect()
    }

    /// Nanoseconds of the check, by the first library.
    pub fn check(&self) -> f64 {
        self.best[0].check
    }

    /// Nanoseconds of the same bytes out of a BTreeMap, the shortest of some times.
    pub fn map(&self, repeats: u32) -> f64 {
        let once = |_| {
            let mut buffer = vec![0; self.expected.len()];
            let start = Instant::now();
            write(&self.map, self.range, &mut buffer);
            let time = nanoseconds(start);
            black_box(&buffer);
            time
        };
        (0..repeats).map(once).fold(f64::MAX, f64::min)
    }
}

fn entry((base, order): (u64, u8)) -> Entry {
    let word = Word(2 * (base % 1_000_000) + 1);
    Entry { base, order, word, marks: Marks(0) }
}

fn filled(library: &dyn Library, entries: &[Entry]) -> Result<Vec<u64>, String> {
    let mut pool = empty_pool(library, USUAL_NODES)?;
    let store = |e: &Entry| Command::Store { index: e.base, order: e.order, word: e.word };
    let stores: Vec<Command> = entries.iter().map(store).collect();
    for batch in batches(&stores, longest_batch(&[library])?) {
        let mut reply = vec![0; REPLY_BYTES * batch.len()];
        let ran = library.run(&mut pool, batch.bytes(), &mut reply);
        if ran.answer != 0 || reply.chunks(REPLY_BYTES).any(|reply| reply[3] != 0) {
            return Err(format!("an entry was not stored: {ran:?}"));
        }
    }
    Ok(pool)
}

/// What a host would write that keeps its entries so. The ranges begin where an entry does.
fn write(map: &BTreeMap<u64, Entry>, (first, last): (u64, u64), buffer: &mut [u8]) {
    for ((_, entry), part) in map.range(first..=last).zip(buffer.chunks_mut(LISTED_BYTES)) {
        part.copy_from_slice(&entry.listed());
    }
}
