//! Times a load through the runs of one or more libraries, each beside a run of an empty batch.

use crate::library::Library;
use crate::loads::{batches, Load, Work};
use std::time::Instant;
use xapool_host::raw::RawResult;
use xapool_host::{pool_words, BatchBuilder, Command, MOST_BATCH_BYTES, MOST_NODES, REPLY_BYTES};

pub fn least(times: &[f64]) -> f64 {
    times.iter().copied().fold(f64::MAX, f64::min)
}

/// 0 if there are none.
pub fn median(times: &[f64]) -> f64 {
    let mut times = times.to_vec();
    times.sort_by(f64::total_cmp);
    times.get(times.len() / 2).copied().unwrap_or(0.0)
}

/// Nanoseconds for all commands of a load.
#[derive(Clone, Copy, Debug, Default)]
pub struct Cost {
    pub commands: u64,
    pub batches: u64,
    /// All runs; each begins with a check of its pool.
    pub run: f64,
    /// Runs of an empty batch on the same pools, each just before the other: the check alone.
    pub check: f64,
}

impl Cost {
    pub fn run_less_check(self) -> f64 {
        (self.run - self.check) / self.commands as f64
    }

    pub fn check_a_command(self) -> f64 {
        self.check / self.commands as f64
    }

    pub fn check_a_batch(self) -> f64 {
        self.check / self.batches as f64
    }

    /// The check's part of a run, in percent.
    pub fn check_share(self) -> f64 {
        100.0 * self.check / self.run
    }
}

/// The time of a batch: its run, and that of an empty batch before it, which is the check.
#[derive(Clone, Copy)]
pub struct Time {
    pub run: f64,
    pub check: f64,
}

impl Time {
    pub const LONGEST: Time = Time { run: f64::MAX, check: f64::MAX };

    pub fn least(self, other: Time) -> Time {
        Time { run: self.run.min(other.run), check: self.check.min(other.check) }
    }
}

/// A load by one or more libraries, and the times of each batch so far.
pub struct Trial<'a> {
    pub load: &'a Load,
    nodes: usize,
    /// One pool for all, so that none has the better place in memory; each takes as much as it needs.
    pool: Vec<u64>,
    ready: Vec<Ready>,
    /// Of each library and each batch, by rounds.
    times: Vec<Vec<Vec<Time>>>,
}

impl<'a> Trial<'a> {
    /// On pools of so many nodes.
    pub fn new(
        libraries: &[&dyn Library],
        load: &'a Load,
        nodes: usize,
    ) -> Result<Trial<'a>, String> {
        let ready = all_ready(libraries, load, nodes)?;
        let batches: usize = ready.iter().map(|ready| ready.batches.len()).sum();
        let times = vec![vec![Vec::new(); batches]; libraries.len()];
        let words = ready.iter().flat_map(|ready| &ready.sizes).max();
        Ok(Trial { load, nodes, pool: vec![0; words.copied().unwrap_or(0)], ready, times })
    }

    /// The load once by each library, in turns that begin with another in each round.
    pub fn round(&mut self, libraries: &[&dyn Library], round: u32) -> Result<(), String> {
        for turn in 0..libraries.len() {
            let at = (round as usize + turn) % libraries.len();
            let times = times(libraries[at], at, &self.ready, &mut self.pool)
                .map_err(|error| format!("{}: {error}", self.load.name))?;
            self.times[at].iter_mut().zip(times).for_each(|(all, time)| all.push(time));
        }
        Ok(())
    }

    /// By each library, from the shortest time of each batch; in the largest pools from medians, as the
    /// check takes many times what the commands take there.
    pub fn costs(&self) -> Vec<Cost> {
        let commands = self.load.pools.iter().map(|work| work.timed.len() as u64).sum();
        let one = if self.nodes == MOST_NODES { middle } else { shortest };
        let total = |batches: &Vec<Vec<Time>>| {
            total(commands, &batches.iter().map(|times| one(times)).collect::<Vec<_>>())
        };
        self.times.iter().map(total).collect()
    }
}

pub fn shortest(times: &[Time]) -> Time {
    times.iter().fold(Time::LONGEST, |best, time| best.least(*time))
}

/// The median of the checks, and with it that of what each run took more than the check beside it.
pub fn middle(times: &[Time]) -> Time {
    let all = |of: fn(&Time) -> f64| median(&times.iter().map(of).collect::<Vec<_>>());
    let check = all(|time| time.check);
    Time { run: check + all(|time| time.run - time.check), check }
}

fn total(commands: u64, times: &[Time]) -> Cost {
    Cost {
        commands,
        batches: times.len() as u64,
        run: times.iter().map(|time| time.run).sum(),
        check: times.iter().map(|time| time.check).sum(),
    }
}

/// Work made ready to be timed: the batches of its setup, its batches and the replies to each; and of
/// each library the size of its pool, the words after its setup (none: an empty pool), and a digest of
/// the words at the end.
pub struct Ready {
    pub setup: Vec<BatchBuilder>,
    pub batches: Vec<BatchBuilder>,
    pub replies: Vec<Vec<u8>>,
    sizes: Vec<usize>,
    words: Option<Vec<Vec<u64>>>,
    ends: Vec<u64>,
}

/// All work of a load. That all libraries give the same replies and words is compared here, batch by
/// batch.
pub fn all_ready(
    libraries: &[&dyn Library],
    load: &Load,
    nodes: usize,
) -> Result<Vec<Ready>, String> {
    let ready = load.pools.iter().map(|work| ready(libraries, load, work, nodes));
    ready.collect::<Result<_, _>>().map_err(|error| format!("{}: {error}", load.name))
}

fn ready(
    libraries: &[&dyn Library],
    load: &Load,
    work: &Work,
    nodes: usize,
) -> Result<Ready, String> {
    let mut pools = Vec::new();
    for library in libraries {
        pools.push(empty_pool(*library, nodes)?);
    }
    let bytes = longest_batch(libraries)?;
    let setup = batches(&work.setup, bytes);
    for batch in &setup {
        all_gave(&run_by_each(libraries, &mut pools, batch)?, 0)?;
    }
    let words = (!work.setup.is_empty()).then(|| pools.clone());
    let batches = batches(&work.timed, bytes);
    let mut replies = Vec::new();
    for batch in &batches {
        let reply = run_by_each(libraries, &mut pools, batch)?;
        all_gave(&reply, load.answer)?;
        replies.push(reply);
    }
    let sizes = pools.iter().map(Vec::len).collect();
    let ends = pools.iter().map(|pool| digest(pool)).collect();
    Ok(Ready { setup, batches, replies, sizes, words, ends })
}

/// What a batch could have before it could have more.
const OLDER_BATCH_BYTES: usize = 8192;

/// The longest batches that every build takes, so that an older one can be measured beside this.
pub fn longest_batch(libraries: &[&dyn Library]) -> Result<usize, String> {
    let loads = batches(&[Command::Load { index: 0 }; OLDER_BATCH_BYTES / 10], MOST_BATCH_BYTES);
    let mut reply = vec![0; REPLY_BYTES * loads[0].len()];
    for library in libraries {
        let mut pool = empty_pool(*library, 1)?;
        if library.run(&mut pool, loads[0].bytes(), &mut reply).answer != 0 {
            return Ok(OLDER_BATCH_BYTES);
        }
    }
    Ok(MOST_BATCH_BYTES)
}

pub fn empty_pool(library: &dyn Library, nodes: usize) -> Result<Vec<u64>, String> {
    let words = pool_words(nodes).ok_or("no pool has so many nodes")?;
    let mut pool = vec![0; words];
    if library.init(&mut pool).answer == POOL_LENGTH {
        pool.truncate(words - nodes);
    }
    done(library.init(&mut pool))?;
    Ok(pool)
}

/// The answer of a build from before P7, whose nodes are a word shorter.
const POOL_LENGTH: u64 = 1;

fn done(result: RawResult) -> Result<(), String> {
    match result {
        RawResult { answer: 0, .. } => Ok(()),
        RawResult { answer, number } => Err(format!("a call is refused: {answer}, {number}")),
    }
}

/// The batch by each library on a pool of its own: replies must be the same, and words where nodes have
/// the same size.
fn run_by_each(
    libraries: &[&dyn Library],
    pools: &mut [Vec<u64>],
    batch: &BatchBuilder,
) -> Result<Vec<u8>, String> {
    let mut first = None;
    for (library, pool) in libraries.iter().zip(pools.iter_mut()) {
        let mut reply = vec![0; REPLY_BYTES * batch.len()];
        done(library.check(pool))?;
        done(library.run(pool, batch.bytes(), &mut reply))?;
        if *first.get_or_insert_with(|| reply.clone()) != reply {
            return Err("the builds reply differently to a batch".into());
        }
    }
    if pools.iter().any(|pool| pool.len() == pools[0].len() && *pool != pools[0]) {
        return Err("the builds leave different words after a batch".into());
    }
    Ok(first.unwrap_or_default())
}

/// Every reply has this answer: a load of refused commands would measure nothing.
fn all_gave(reply: &[u8], answer: u8) -> Result<(), String> {
    match reply.chunks(REPLY_BYTES).find(|reply| reply.get(3) != Some(&answer)) {
        None => Ok(()),
        Some(reply) => Err(format!("a command was not answered with {answer}: {reply:?}")),
    }
}

fn digest(words: &[u64]) -> u64 {
    words.iter().fold(0, |sum: u64, word| (sum ^ word).wrapping_mul(0x9E37_79B9_7F4A_7C15))
}

/// One round by one library, the one `at` that place: the time of each batch of all pools, one after the
/// other.
pub fn times(
    library: &dyn Library,
    at: usize,
    all: &[Ready],
    pool: &mut [u64],
) -> Result<Vec<Time>, String> {
    let (mut times, mut space) = (Vec::new(), Vec::new());
    for ready in all {
        let pool = &mut pool[..ready.sizes[at]];
        match &ready.words {
            Some(words) => pool.copy_from_slice(&words[at]),
            None => done(library.init(pool))?,
        }
        for (batch, expected) in ready.batches.iter().zip(&ready.replies) {
            let reply = blank(&mut space, expected.len());
            times.push(timed_run(library, pool, batch, reply)?);
            if reply != *expected {
                return Err("a build replies differently from round to round".into());
            }
        }
        if digest(pool) != ready.ends[at] {
            return Err("a build leaves different words from round to round".into());
        }
    }
    Ok(times)
}

/// So many bytes of reply space, all 0. One space for all runs: of a new one the first touch of its
/// pages would be timed too.
pub fn blank(space: &mut Vec<u8>, bytes: usize) -> &mut [u8] {
    space.clear();
    space.resize(bytes, 0);
    space
}

pub fn nanoseconds(since: Instant) -> f64 {
    since.elapsed().as_nanos() as f64
}

fn timed_run(
    library: &dyn Library,
    pool: &mut [u64],
    batch: &BatchBuilder,
    reply: &mut [u8],
) -> Result<Time, String> {
    // Not timed: so the words are as near for the check as for the run after it.
    done(library.check(pool))?;
    let start = Instant::now();
    let checked = library.run(pool, &[], &mut []);
    let check = nanoseconds(start);
    let start = Instant::now();
    let ran = library.run(pool, batch.bytes(), reply);
    let run = nanoseconds(start);
    done(checked).and(done(ran))?;
    Ok(Time { run, check })
}
