//! What a load is, and the three loads of docs/BENCHMARKS.md: dense stores, sparse stores at random,
//! marked finds. finds.rs and stores.rs have more, for the comparison of two builds.

use xapool_host::{BatchBuilder, Command, Word, MOST_NODES};

/// The work on one pool: what is run before the clock starts, and what is timed.
pub struct Work {
    pub setup: Vec<Command>,
    pub timed: Vec<Command>,
}

pub struct Load {
    pub name: &'static str,
    pub about: String,
    pub pools: Vec<Work>,
    /// The nodes of each pool.
    pub nodes: usize,
    /// What every timed command is answered with.
    pub answer: u8,
}

impl Load {
    pub fn new(name: &'static str, about: impl Into<String>, pools: Vec<Work>) -> Load {
        Load { name, about: about.into(), pools, nodes: USUAL_NODES, answer: 0 }
    }
}

/// Every 97th entry is marked, so that a find passes some entries and some nodes.
pub const MARKED_EVERY: u64 = 97;
pub const MARK: u8 = 0;

/// The nodes of a pool, where a load does not say.
pub const USUAL_NODES: usize = 1000;

/// What stands at random in one pool: so many entries, and nodes enough for them.
#[derive(Clone, Copy)]
pub struct Scatter {
    pub entries: usize,
    pub nodes: usize,
}

/// Stores that fill a batch; below 2^24 they take about 3,050 nodes.
pub const BATCH_OF_STORES: Scatter = Scatter { entries: 1638, nodes: 4096 };

/// Erases that fill a batch; about 5,150 nodes.
pub const BATCH_OF_ERASES: Scatter = Scatter { entries: 2978, nodes: 8192 };

/// Seven full batches of stores, about 15,400 nodes.
pub const LARGEST: Scatter = Scatter { entries: 7 * BATCH_OF_STORES.entries, nodes: MOST_NODES };

/// For a build from before P8 as well: a full batch of its, about 860 nodes.
pub const OLDER: Scatter = Scatter { entries: 409, nodes: USUAL_NODES };

/// A small generator (splitmix64), the same numbers in every run.
pub struct Random(pub u64);

impl Random {
    pub fn below(&mut self, limit: u64) -> u64 {
        self.0 = self.0.wrapping_add(0x9E37_79B9_7F4A_7C15);
        let mixed = (self.0 ^ (self.0 >> 30)).wrapping_mul(0xBF58_476D_1CE4_E5B9);
        let mixed = (mixed ^ (mixed >> 27)).wrapping_mul(0x94D0_49BB_1331_11EB);
        (mixed ^ (mixed >> 31)) % limit.max(1)
    }
}

impl Random {
    /// All of them in a random order.
    pub fn shuffled<T>(&mut self, mut all: Vec<T>) -> Vec<T> {
        for last in (1..all.len()).rev() {
            all.swap(last, self.below(last as u64 + 1) as usize);
        }
        all
    }
}

pub fn store_order(index: u64, order: u8) -> Command {
    Command::Store { index, order, word: Word(2 * (index % 1_000_000) + 1) }
}

pub fn store(index: u64) -> Command {
    store_order(index, 0)
}

pub fn dense_stores(indices: u64) -> Vec<Command> {
    (0..indices).map(store).collect()
}

pub fn find(first: u64, filter: u8) -> Command {
    Command::Find { first, last: u64::MAX, filter, budget: u16::MAX }
}

pub fn dense(indices: u64) -> Load {
    let about = format!("order 0 at indices 0 to {}, in order, one pool", indices - 1);
    let pools = vec![Work { setup: Vec::new(), timed: dense_stores(indices) }];
    Load::new("dense stores", about, pools)
}

/// The stores, so many to each pool.
pub fn stores_by_pool(stores: &[Command], a_pool: usize) -> Vec<Work> {
    let work = |part: &[Command]| Work { setup: Vec::new(), timed: part.to_vec() };
    stores.chunks(a_pool).map(work).collect()
}

pub fn sparse(stores: u64, scatter: Scatter) -> Load {
    let Scatter { entries, nodes } = scatter;
    let mut random = Random(1);
    let stores: Vec<Command> = (0..stores).map(|_| store(random.below(1 << 24))).collect();
    let pools = stores_by_pool(&stores, entries);
    let about = format!(
        "order 0 at random below 2^24, {entries} to a pool of {nodes} nodes, pools: {}",
        pools.len()
    );
    Load { nodes, ..Load::new("sparse stores", about, pools) }
}

pub fn mark(index: u64) -> Command {
    Command::Mark { index, mark: MARK }
}

/// Every 97th index.
pub fn one_in_97(indices: u64) -> impl Iterator<Item = u64> {
    (0..indices).filter(|index| index % MARKED_EVERY == MARKED_EVERY - 1)
}

pub fn marked_finds(indices: u64, finds: u64) -> Load {
    let mut random = Random(2);
    let mut setup = dense_stores(indices);
    setup.extend(one_in_97(indices).map(mark));
    // From here on there is a marked entry.
    let most = indices - indices % MARKED_EVERY;
    let timed = (0..finds).map(|_| find(random.below(most), MARK)).collect();
    let about =
        format!("from random indices, {indices} dense entries, one in {MARKED_EVERY} marked");
    Load::new("marked finds", about, vec![Work { setup, timed }])
}

/// Stores at random in 12 blocks of 64 indices, which take at most 37 nodes.
fn sparse_in_few_blocks() -> Load {
    let mut random = Random(3);
    let blocks: Vec<u64> = (0..12).map(|_| 64 * random.below(1 << 18)).collect();
    let mut index = || blocks[random.below(12) as usize] + random.below(64);
    let timed = (0..OLDER.entries).map(|_| store(index())).collect();
    let pools = vec![Work { setup: Vec::new(), timed }];
    Load::new("sparse stores", "at random in 12 blocks of 64", pools)
}

/// The three loads, small enough for 40 nodes.
pub fn small() -> Vec<Load> {
    vec![dense(2000), sparse_in_few_blocks(), marked_finds(2000, 2000)]
}

/// The commands as batches that are full, each of at most so many bytes.
pub fn batches(commands: &[Command], bytes: usize) -> Vec<BatchBuilder> {
    let mut all = vec![BatchBuilder::new()];
    for command in commands {
        let fits =
            |batch: &BatchBuilder| batch.bytes().len() + command.tag().record_bytes() <= bytes;
        let last = all.last_mut().filter(|batch| fits(batch));
        if last.is_none_or(|batch| batch.push(*command).is_err()) {
            let mut batch = BatchBuilder::new();
            // An empty batch has room for any command.
            let _ = batch.push(*command);
            all.push(batch);
        }
    }
    all
}
