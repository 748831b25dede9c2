//! The library beside the engines of engine/: the same batches in one process, in turns. Replies are
//! compared byte for byte, batch by batch, in every round.

use crate::library::Linked;
use crate::loads::{dense, marked_finds, sparse, Load};
use crate::loads::{BATCH_OF_ERASES, BATCH_OF_STORES, LARGEST};
use crate::measure::{all_ready, blank, empty_pool, nanoseconds, times, Ready};
use crate::{finds, free, stores};
use engine::{Calls, RawEngine, SafeEngine};
use std::time::Instant;
use xapool_host::{BatchBuilder, REPLY_BYTES};

pub const USAGE: &str = "\
usage: bench engines [--rounds N] [--indices N]
  --rounds    of all loads by each, in turns; 100 if not named
  --indices   of the dense loads, and the commands of most others; 60,000 if not named
Exit status: 0 fine, 1 replies differ or a call was refused, 2 bad usage.";

pub const ROUNDS: u32 = 100;

/// How many of the loads are those that a limit is asked for; they come first.
pub const ASKED: usize = 3;
/// The library without the check is to take at most so many times an engine's time.
pub const LIMIT: f64 = 2.0;

pub fn loads(indices: u64) -> Vec<Load> {
    let mut all = vec![
        dense(indices),
        sparse(indices, BATCH_OF_STORES),
        marked_finds(indices, indices),
        Load { name: "sparse stores, largest pools", ..sparse(indices, LARGEST) },
        stores::hits(indices),
        stores::misses(indices),
        stores::erases(indices),
        stores::sparse_erases(indices / 2, BATCH_OF_ERASES),
        stores::marks(indices),
        stores::mixed_orders(indices / 2, BATCH_OF_STORES),
        stores::overwrites(indices),
        stores::churn(indices / 2),
        finds::over_gaps(indices, indices / 2),
        finds::over_sparse(indices / 2, BATCH_OF_STORES),
        finds::over_runs(indices, indices / 2),
    ];
    // Where few nodes are free, in the largest pool.
    all.extend(free::loads(free::NODES[2]));
    all
}

/// The times of each batch, by rounds.
#[derive(Default)]
struct Times {
    batches: Vec<Vec<f64>>,
}

/// Nanoseconds of a batch, the mean of all: from the shortest time of each, and from its median.
#[derive(Clone, Copy, Debug)]
pub struct Mean {
    pub least: f64,
    pub median: f64,
}

impl Times {
    fn add(&mut self, round: impl IntoIterator<Item = f64>) {
        for (batch, time) in round.into_iter().enumerate() {
            if batch == self.batches.len() {
                self.batches.push(Vec::new());
            }
            self.batches[batch].push(time);
        }
    }

    fn mean(&self) -> Mean {
        let of = |at: fn(usize) -> usize| {
            let each = self.batches.iter().map(|times| {
                let mut times = times.clone();
                times.sort_by(f64::total_cmp);
                times[at(times.len())]
            });
            each.sum::<f64>() / self.batches.len() as f64
        };
        Mean { least: of(|_| 0), median: of(|rounds| rounds / 2) }
    }
}

/// A load by the library and both engines.
struct Trial<'a> {
    load: &'a Load,
    ready: Vec<Ready>,
    pool: Vec<u64>,
    engines: [Box<dyn Calls>; 2],
    run: Times,
    check: Times,
    /// What each run took more than the check beside it.
    less: Times,
    by_engines: [Times; 2],
}

impl<'a> Trial<'a> {
    fn new(load: &'a Load) -> Result<Trial<'a>, String> {
        let safe = SafeEngine::new(load.nodes).ok_or("no engine has so many nodes")?;
        let raw = RawEngine::new(load.nodes).ok_or("no engine has so many nodes")?;
        Ok(Trial {
            load,
            ready: all_ready(&[&Linked], load, load.nodes)?,
            pool: empty_pool(&Linked, load.nodes)?,
            engines: [Box::new(safe), Box::new(raw)],
            run: Times::default(),
            check: Times::default(),
            less: Times::default(),
            by_engines: Default::default(),
        })
    }

    /// The load once by each, in turns that begin with another in each round.
    fn round(&mut self, round: u32) -> Result<(), String> {
        for turn in 0..3 {
            let done = match (round + turn) % 3 {
                0 => self.by_library(),
                engine => self.by_engine(engine as usize - 1),
            };
            done.map_err(|error| format!("{}: {error}", self.load.name))?;
        }
        Ok(())
    }

    fn by_library(&mut self) -> Result<(), String> {
        let times = times(&Linked, 0, &self.ready, &mut self.pool)?;
        self.run.add(times.iter().map(|time| time.run));
        self.check.add(times.iter().map(|time| time.check));
        self.less.add(times.iter().map(|time| time.run - time.check));
        Ok(())
    }

    fn by_engine(&mut self, at: usize) -> Result<(), String> {
        let mut times = Vec::new();
        for ready in &self.ready {
            engine_times(&mut *self.engines[at], ready, &mut times)?;
        }
        self.by_engines[at].add(times);
        Ok(())
    }

    fn row(&self) -> Row {
        let commands = self.load.pools.iter().map(|work| work.timed.len()).sum();
        Row {
            name: self.load.name,
            about: self.load.about.clone(),
            commands,
            batches: self.run.batches.len(),
            run: self.run.mean(),
            check: self.check.mean(),
            less_median: self.less.mean().median,
            engines: [self.by_engines[0].mean(), self.by_engines[1].mean()],
        }
    }
}

/// The time of each batch of one pool by an engine, after its setup.
fn engine_times(engine: &mut dyn Calls, ready: &Ready, times: &mut Vec<f64>) -> Result<(), String> {
    engine.init();
    let mut space = Vec::new();
    for batch in &ready.setup {
        run(engine, batch, blank(&mut space, REPLY_BYTES * batch.len()))?;
    }
    for (batch, expected) in ready.batches.iter().zip(&ready.replies) {
        let reply = blank(&mut space, expected.len());
        times.push(run(engine, batch, reply)?);
        if reply != *expected {
            return Err("an engine replies differently from the library".into());
        }
    }
    Ok(())
}

/// The nanoseconds of a batch.
fn run(engine: &mut dyn Calls, batch: &BatchBuilder, reply: &mut [u8]) -> Result<f64, String> {
    let start = Instant::now();
    let outcome = engine.run(batch.bytes(), reply);
    let time = nanoseconds(start);
    match outcome.answer {
        0 => Ok(time),
        answer => Err(format!("an engine refuses a batch: {answer}, {}", outcome.number)),
    }
}

/// What a batch of a load takes, by the library and by the engines, safe and raw.
pub struct Row {
    pub name: &'static str,
    pub about: String,
    pub commands: usize,
    pub batches: usize,
    run: Mean,
    pub check: Mean,
    /// Of what each run took more than the check beside it.
    less_median: f64,
    engines: [Mean; 2],
}

impl Row {
    /// The library's time without the check.
    pub fn less_check(&self) -> Mean {
        Mean { least: self.run.least - self.check.least, median: self.less_median }
    }

    /// The library's time without the check by the engines'.
    pub fn ratios(&self) -> [Mean; 2] {
        self.engines.map(|engine| over(self.less_check(), engine))
    }

    /// The same with the check.
    pub fn ratios_with_check(&self) -> [Mean; 2] {
        self.engines.map(|engine| over(self.run, engine))
    }
}

fn over(time: Mean, engine: Mean) -> Mean {
    Mean { least: time.least / engine.least, median: time.median / engine.median }
}

pub fn rows(indices: u64, rounds: u32) -> Result<Vec<Row>, String> {
    let loads = loads(indices);
    let mut trials = loads.iter().map(Trial::new).collect::<Result<Vec<_>, _>>()?;
    // All loads in each round: a machine that is busy for a while is so for a part of each.
    for round in 0..rounds {
        trials.iter_mut().try_for_each(|trial| trial.round(round))?;
    }
    Ok(trials.iter().map(Trial::row).collect())
}

fn micros(mean: Mean) -> String {
    format!("{:.2}, {:.2}", mean.least / 1000.0, mean.median / 1000.0)
}

fn times_over(ratio: Mean) -> String {
    format!("{:.2}, {:.2}", ratio.least, ratio.median)
}

pub fn table(rows: &[Row]) -> String {
    let mut text = String::from(
        "| load | commands | batches | library without the check, µs a batch | safe Rust | raw pointers \
         | library / safe | library / raw | check, µs a batch | with the check: / safe | / raw |\n\
         |---|---|---|---|---|---|---|---|---|---|---|\n",
    );
    for row in rows {
        let Row { name, about, commands, batches, .. } = row;
        let [safe, raw] = row.engines.map(micros);
        let [by_safe, by_raw] = row.ratios().map(times_over);
        let [all_safe, all_raw] = row.ratios_with_check().map(times_over);
        let (library, check) = (micros(row.less_check()), micros(row.check));
        text += &format!(
            "| {name}: {about} | {commands} | {batches} | {library} | {safe} | {raw} \
             | {by_safe} | {by_raw} | {check} | {all_safe} | {all_raw} |\n"
        );
    }
    text
}

/// Which of the loads that a limit is asked for do not keep it, by the shortest times or the medians.
pub fn verdict(rows: &[Row]) -> String {
    let over = |at: usize| {
        let over = |row: &&Row| row.ratios()[at].least.max(row.ratios()[at].median) > LIMIT;
        let names: Vec<&str> = rows.iter().take(ASKED).filter(over).map(|row| row.name).collect();
        if names.is_empty() {
            "none".into()
        } else {
            names.join(", ")
        }
    };
    let (safe, raw) = (over(0), over(1));
    format!(
        "Of the first {ASKED} loads the library takes, without the check, more than {LIMIT} times the time of safe Rust: {safe}; \
         of raw pointers: {raw}."
    )
}

fn options(mut words: impl Iterator<Item = String>) -> Option<(u32, u64)> {
    let (mut rounds, mut indices) = (ROUNDS, 60_000);
    while let Some(name) = words.next() {
        let value = words.next()?;
        match name.as_str() {
            "--rounds" => rounds = value.parse().ok().filter(|n| *n > 0)?,
            "--indices" => indices = value.parse().ok().filter(|n| (500..=60_000).contains(n))?,
            _ => return None,
        }
    }
    Some((rounds, indices))
}

/// None: bad usage.
pub fn measure(words: impl Iterator<Item = String>) -> Option<Result<(), String>> {
    let (rounds, indices) = options(words)?;
    let rows = rows(indices, rounds);
    Some(rows.map(|rows| println!("{}\n{}", table(&rows), verdict(&rows))))
}
