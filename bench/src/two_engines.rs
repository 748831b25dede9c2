//! The tree and the plain engine (P12) of the library: the loads of docs/BENCHMARKS.md's first table, made for 40, 400 and 4,096
//! entries, in one process and in turns. Replies are compared batch by batch in every round, but for the counts of finds.

use crate::loads::{batches, dense_stores, find, mark, one_in_97, store, Load, Random, Work, MARK};
use crate::measure::{blank, least, median, nanoseconds};
use std::collections::BTreeSet;
use std::time::Instant;
use xapool_host::{BatchBuilder, Command, Engine, Plain, Pool, MOST_BATCH_BYTES, REPLY_BYTES};

pub const USAGE: &str = "\
usage: bench plain [--rounds N]
  --rounds    of all loads by each engine, in turns; 100 if not named
Exit status: 0 fine, 1 replies differ or a call was refused, 2 bad usage.";

const ROUNDS: u32 = 100;
pub const ENTRIES: [u64; 3] = [40, 400, 4096];
const FINDS: u64 = 1000;

/// The nodes that stores of order 0 below 2^24 take, at most: a node of each shift over each. A pool of no more has the
/// shortest check.
fn nodes_of(work: &Work) -> usize {
    let index = |command: &Command| match command {
        Command::Store { index, .. } => Some(*index),
        _ => None,
    };
    let indices: Vec<u64> = work.setup.iter().chain(&work.timed).filter_map(index).collect();
    let blocks =
        |bits: u32| indices.iter().map(|index| index >> bits).collect::<BTreeSet<_>>().len();
    [6, 12, 18, 24].into_iter().map(blocks).sum()
}

/// A load for so many entries.
fn loads(entries: u64) -> [Load; 3] {
    let mut random = Random(1);
    let alone = |timed| vec![Work { setup: Vec::new(), timed }];
    let sparse: Vec<Command> = (0..entries).map(|_| store(random.below(1 << 24))).collect();
    let mut setup = dense_stores(entries);
    setup.extend(one_in_97(entries).map(mark));
    // Of few entries the last is marked, so that most finds end with one.
    setup.push(mark(entries - 1));
    let timed = (0..FINDS).map(|_| find(random.below(entries), MARK)).collect();
    let new = |name, pools: Vec<Work>| {
        let nodes = pools.iter().map(nodes_of).max().unwrap_or(1);
        Load { nodes, ..Load::new(name, "", pools) }
    };
    [
        new("dense stores", alone(dense_stores(entries))),
        new("sparse stores", alone(sparse)),
        new("marked finds", vec![Work { setup, timed }]),
    ]
}

/// What a load takes by the tree and by the plain engine: its runs together, and its checks, by rounds.
pub struct Row {
    name: &'static str,
    entries: u64,
    nodes: usize,
    commands: usize,
    runs: [Vec<f64>; 2],
    checks: [Vec<f64>; 2],
}

/// The times of a load by one engine, and its replies without the counts of finds.
struct Ran {
    run: f64,
    check: f64,
    replies: Vec<u8>,
}

fn ran(
    engine: &mut dyn Engine,
    setup: &[BatchBuilder],
    timed: &[BatchBuilder],
) -> Result<Ran, String> {
    let refused = |refusal| format!("a call is refused: {refusal}");
    engine.init().map_err(refused)?;
    let mut space = Vec::new();
    for batch in setup {
        let reply = blank(&mut space, REPLY_BYTES * batch.len());
        engine.run_bytes(batch.bytes(), reply).map_err(refused)?;
    }
    let mut all = Ran { run: 0.0, check: 0.0, replies: Vec::new() };
    for batch in timed {
        let start = Instant::now();
        engine.run_bytes(&[], &mut []).map_err(refused)?;
        all.check += nanoseconds(start);
        let reply = blank(&mut space, REPLY_BYTES * batch.len());
        let start = Instant::now();
        engine.run_bytes(batch.bytes(), reply).map_err(refused)?;
        all.run += nanoseconds(start);
        all.replies.extend_from_slice(reply);
    }
    for reply in all.replies.chunks_mut(REPLY_BYTES).filter(|reply| [130, 134].contains(&reply[0]))
    {
        reply[22..].fill(0);
    }
    Ok(all)
}

fn row(load: &Load, entries: u64, rounds: u32) -> Result<Row, String> {
    let work = &load.pools[0];
    let parts = |commands: &[Command]| match commands {
        [] => Vec::new(),
        some => batches(some, MOST_BATCH_BYTES),
    };
    let [setup, timed] = [parts(&work.setup), parts(&work.timed)];
    let refused = |refusal| format!("no engine: {refusal}");
    let mut pool = Pool::new(load.nodes).map_err(refused)?;
    let mut plain = Plain::new(entries as usize).map_err(refused)?;
    let mut row = Row {
        name: load.name,
        entries,
        nodes: load.nodes,
        commands: work.timed.len(),
        runs: Default::default(),
        checks: Default::default(),
    };
    for round in 0..rounds {
        let mut replies: [Vec<u8>; 2] = Default::default();
        for turn in 0..2 {
            let at = (round as usize + turn) % 2;
            let engine: &mut dyn Engine = if at == 0 { &mut pool } else { &mut plain };
            let ran = ran(engine, &setup, &timed)?;
            row.runs[at].push(ran.run);
            row.checks[at].push(ran.check);
            replies[at] = ran.replies;
        }
        if replies[0] != replies[1] || replies[0].chunks(REPLY_BYTES).any(|reply| reply[3] != 0) {
            return Err(format!("{}: the engines reply differently, or one refuses", load.name));
        }
    }
    Ok(row)
}

pub fn rows(rounds: u32) -> Result<Vec<Row>, String> {
    let mut rows = Vec::new();
    for entries in ENTRIES {
        for load in loads(entries) {
            rows.push(row(&load, entries, rounds)?);
        }
    }
    Ok(rows)
}

/// Nanoseconds a command by the tree and by the plain engine, and how many times the tree's the latter is.
fn both(times: [f64; 2]) -> String {
    let [tree, plain] = times;
    format!("{tree:.0} | {plain:.0} | {:.2}", plain / tree)
}

/// From the shortest times and, in a second row of columns, from the medians, with the check of each batch and without it.
pub fn table(rows: &[Row]) -> String {
    let mut text = String::from(
        "| load | entries | nodes | commands | tree, ns a command, shortest | plain | plain / tree \
         | tree, without the check | plain | plain / tree | tree, median | plain | plain / tree |\n\
         |---|---|---|---|---|---|---|---|---|---|---|---|---|\n",
    );
    for Row { name, entries, nodes, commands, runs, checks } in rows {
        let each = |of: fn(&[f64]) -> f64, times: &[Vec<f64>; 2]| {
            [0, 1].map(|at| of(&times[at]) / *commands as f64)
        };
        let (run, check) = (each(least, runs), each(least, checks));
        let less = [0, 1].map(|at| run[at] - check[at]);
        text += &format!(
            "| {name} | {entries} | {nodes} | {commands} | {} | {} | {} |\n",
            both(run),
            both(less),
            both(each(median, runs))
        );
    }
    text
}

/// None: bad usage.
pub fn measure(mut words: impl Iterator<Item = String>) -> Option<Result<(), String>> {
    let rounds = match (words.next().as_deref(), words.next()) {
        (None, _) => ROUNDS,
        (Some("--rounds"), Some(rounds)) => rounds.parse().ok().filter(|rounds| *rounds > 0)?,
        _ => return None,
    };
    Some(rows(rounds).map(|rows| println!("{}", table(&rows))))
}

#[cfg(test)]
mod tests {
    use super::*;

    #[test]
    fn both_engines_reply_the_same_to_every_load() {
        let rows = rows(1).expect("no call is refused");
        assert_eq!(rows.len(), 9);
        assert_eq!(table(&rows).lines().count(), 11);
        let commands: Vec<usize> = rows.iter().map(|row| row.commands).collect();
        assert_eq!(commands[6..], [4096, 4096, 1000]);
    }
}
