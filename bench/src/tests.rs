//! The loads fit the pools they run on.

use crate::library::{processor_time, Library, Linked};
use crate::loads::*;
use crate::measure::{self, Cost, Trial};
use crate::table::{self, ByNodes};
use crate::{beside_or, checks, engines, finds, free, kinds, lists, regions, stores};
use std::collections::BTreeSet;
use xapool_host::layout::{
    count_place, filled_slots, mark_place, node_place, sibling_word, slot_place, RESERVED_WORD,
    SLOTS,
};
use xapool_host::raw::RawResult;
use xapool_host::{Command, Pool, MOST_BATCH_BYTES, MOST_NODES};

/// The nodes that stores of order 0 below 2^24 take, at most: a node of each shift over each.
fn most_nodes(work: &Work) -> usize {
    let index = |command: &Command| match command {
        Command::Store { index, .. } => Some(*index),
        _ => None,
    };
    let indices: Vec<u64> = work.setup.iter().chain(&work.timed).filter_map(index).collect();
    assert!(indices.iter().all(|index| *index < 1 << 24));
    let nodes =
        |bits: u32| indices.iter().map(|index| index >> bits).collect::<BTreeSet<_>>().len();
    [6, 12, 18, 24].into_iter().map(nodes).sum()
}

fn most(load: &Load) -> usize {
    load.pools.iter().map(most_nodes).max().unwrap_or(0)
}

#[test]
fn full_loads_fit_their_nodes() {
    let sparse = |scatter| sparse(60_000, scatter);
    let sparse = [sparse(OLDER), sparse(BATCH_OF_STORES), sparse(LARGEST)];
    for load in [dense(60_000), marked_finds(60_000, 60_000)].into_iter().chain(sparse) {
        assert!(most(&load) <= load.nodes, "{}: {}", load.name, most(&load));
        let commands: usize = load.pools.iter().map(|work| work.timed.len()).sum();
        assert_eq!(commands, 60_000);
    }
}

#[test]
fn small_loads_fit_40_nodes() {
    for load in small() {
        assert!(most(&load) <= 40, "{}: {}", load.name, most(&load));
    }
}

#[test]
fn batches_are_full_and_lose_nothing() {
    let work = &dense(4000).pools[0];
    let lengths = |bytes: usize| {
        batches(&work.timed, bytes).iter().map(|batch| batch.len()).collect::<Vec<_>>()
    };
    // A store has 20 bytes.
    assert_eq!(lengths(MOST_BATCH_BYTES), [1638, 1638, 724]);
    assert_eq!(lengths(8192)[..2], [409, 409]);
    let all = batches(&work.timed, MOST_BATCH_BYTES);
    let again: Vec<Command> = all.iter().flat_map(|batch| batch.commands().flatten()).collect();
    assert_eq!(again, work.timed);
}

/// A command that is not answered as its load says is an error here.
#[test]
fn loads_for_two_builds_run() -> Result<(), String> {
    for load in finds::loads(1000).into_iter().chain(stores::loads(1000)) {
        let mut trial = Trial::new(&[&Linked, &Linked], &load, load.nodes)?;
        trial.round(&[&Linked, &Linked], 0)?;
        assert!(trial.costs().iter().all(|cost| cost.commands > 0 && cost.run < 1e12));
    }
    Ok(())
}

/// The nodes that these entries of order 0 take, under a head of shift 18.
fn nodes_over(indices: &BTreeSet<u64>) -> usize {
    let nodes =
        |bits: u32| indices.iter().map(|index| index >> bits).collect::<BTreeSet<_>>().len();
    assert!(indices.last().is_some_and(|last| (1..64).contains(&(last >> 18))));
    [6, 12, 18, 24].into_iter().map(nodes).sum()
}

fn apply(there: &mut BTreeSet<u64>, command: &Command) {
    match command {
        Command::Store { index, .. } => assert!(there.insert(*index)),
        Command::Erase { index } => assert!(there.remove(index)),
        other => panic!("{other}"),
    }
}

/// The nodes in use after the setup, and the most and fewest during the first commands.
fn in_use(load: &Load) -> (usize, usize, usize) {
    let (work, mut there) = (&load.pools[0], BTreeSet::new());
    work.setup.iter().for_each(|command| apply(&mut there, command));
    let before = nodes_over(&there);
    let (mut most, mut fewest) = (before, before);
    for command in work.timed.iter().take(200) {
        apply(&mut there, command);
        most = most.max(nodes_over(&there));
        fewest = fewest.min(nodes_over(&there));
    }
    (before, most, fewest)
}

#[test]
fn few_nodes_are_free_where_it_is_said() {
    for nodes in [40, 1000] {
        let [churn, three, none] = &free::loads(nodes)[..] else { panic!("three loads") };
        let (before, most, fewest) = in_use(churn);
        assert!(before <= nodes * 9 / 10 && before + 3 > nodes * 9 / 10, "{before} of {nodes}");
        assert!(most <= nodes && fewest + nodes / 20 > before, "{most}, {fewest} of {nodes}");
        assert_eq!(in_use(three), (nodes - 3, nodes, nodes - 3));
        assert_eq!(in_use(none).0, nodes);
    }
    let largest: BTreeSet<u64> = free::filling(16_384).into_iter().collect();
    assert_eq!(nodes_over(&largest), 16_384);
}

/// In the smallest pool, by the library: which nodes are free before the clock starts.
#[test]
fn loads_for_free_nodes_run() -> Result<(), String> {
    let loads = free::loads(40);
    for load in &loads {
        let mut trial = Trial::new(&[&Linked], load, 40)?;
        trial.round(&[&Linked], 0)?;
        assert!(trial.costs().iter().all(|cost| cost.commands > 0 && cost.run < 1e12));
    }
    let mut pool = Pool::new(40).map_err(|refusal| refusal.to_string())?;
    let replies = pool.run_all(loads[1].pools[0].setup.iter().copied());
    assert!(replies
        .map_err(|refusal| refusal.to_string())?
        .iter()
        .all(|reply| reply.done().is_ok()));
    let is_free = |node: &usize| pool.words()[node_place(*node)] == 0;
    assert_eq!((0..40).filter(is_free).collect::<Vec<_>>(), [7, 38, 39]);
    Ok(())
}

/// So is a reply of an engine that is not the library's.
#[test]
fn loads_beside_the_engines_run() -> Result<(), String> {
    let rows = engines::rows(1000, 2)?;
    assert_eq!(rows.len(), engines::loads(1000).len());
    let good = |row: &engines::Row| {
        row.commands > 0 && row.ratios_with_check().iter().all(|ratio| ratio.least > 0.0)
    };
    assert!(rows.iter().all(good));
    assert!(crate::engine_plot::svg(&engines::table(&rows))
        .is_ok_and(|svg| svg.contains("marked finds")));
    assert_eq!(engines::table(&rows).lines().count(), rows.len() + 2);
    Ok(())
}

/// All nodes are in use before each pair of commands, and one is free in between.
#[test]
fn churn_is_in_a_full_pool() {
    let load = stores::churn(1000);
    assert_eq!((load.nodes, in_use(&load)), (16_384, (16_384, 16_384, 16_383)));
}

/// So is a list that has other bytes than its entries call for.
#[test]
fn lists_are_of_their_entries() -> Result<(), String> {
    let mut trials = lists::trials(&[&Linked, &Linked], 1000)?;
    let entries: Vec<u64> = trials.iter().map(|trial| trial.entries).collect();
    assert_eq!((&entries[..4], trials.len()), (&[1000, 1000, 100, 1][..], 5));
    trials.iter_mut().try_for_each(|trial| trial.round(&[&Linked, &Linked], 0))?;
    assert!(trials.iter().all(|trial| trial.costs().iter().all(|cost| *cost < 1e12)));
    Ok(())
}

/// So is a region of which not all ways give the same digest.
#[test]
fn regions_are_digested_alike() -> Result<(), String> {
    let rows = regions::rows(1 << 20, 1)?;
    assert_eq!(rows.iter().map(|row| row.bytes).collect::<Vec<_>>(), [64, 4096, 1 << 20]);
    assert!(rows.iter().all(|row| row.crc < 1e12 && row.matched < 1e12 && row.by_8 < 1e12));
    Ok(())
}

/// A build that has no lists yet.
struct Older;

impl Library for Older {
    fn init(&self, pool: &mut [u64]) -> RawResult {
        Linked.init(pool)
    }

    fn check(&self, pool: &[u64]) -> RawResult {
        Linked.check(pool)
    }

    fn run(&self, pool: &mut [u64], batch: &[u8], reply: &mut [u8]) -> RawResult {
        Linked.run(pool, batch, reply)
    }

    fn list(&self, _: &[u64], _: u64, _: u64, _: &mut [u8]) -> Option<RawResult> {
        None
    }
}

#[test]
fn builds_of_which_one_has_no_lists_are_measured_without() -> Result<(), String> {
    assert!(lists::trials(&[&Older, &Linked], 1000)?.is_empty());
    let load = dense(1000);
    Trial::new(&[&Older, &Linked], &load, load.nodes)?.round(&[&Older, &Linked], 0)
}

/// So is a good pool that the check refuses, or a bad one that it does not.
#[test]
fn pools_for_the_check_are_good_and_bad() -> Result<(), String> {
    let mut trials = checks::trials(&[&Linked])?;
    assert_eq!(trials.len(), 3 * kinds::kinds().len());
    trials.iter_mut().try_for_each(|trial| trial.round(&[&Linked], 0))
}

/// What the names of the kinds say of the pools, of 1,000 nodes: reserved places and places of entries,
/// siblings and marks of a node that is in use.
#[test]
fn kinds_are_what_they_are_called() -> Result<(), String> {
    for kind in kinds::kinds().into_iter().filter(|kind| kind.name != "empty") {
        let words = kinds::pool(&Linked, &kind, 1000)?;
        let in_use = (0..1000).filter(|node| words[node_place(*node)] != 0);
        let slots: Vec<u64> = in_use
            .clone()
            .flat_map(|node| &words[slot_place(node, 0)..slot_place(node, SLOTS)])
            .copied()
            .collect();
        let share = |is: fn(u64) -> bool| {
            slots.iter().filter(|word| is(**word)).count() as f64 / slots.len() as f64
        };
        let reserved = share(|word| word == RESERVED_WORD);
        let siblings = share(|word| word % 4 == 2 && word < 256);
        let empty = share(|word| word == 0);
        let marked = in_use.clone().any(|node| words[mark_place(node, 0)] != 0);
        let about = |is: f64, to_be: f64| (is - to_be).abs() < 0.1;
        let (name, says) = (kind.name, |word: &str| kind.name.contains(word));
        assert_eq!(says("mark"), marked, "{name}");
        assert_eq!(says("order"), siblings > 0.1, "{name}: {siblings}");
        assert!(about(reserved, if says("reserved") { 0.5 } else { 0.0 }), "{name}: {reserved}");
        assert!(!says("gaps") || empty > 0.2, "{name}: {empty}");
        assert!(!says("holes") || about(empty, 0.5), "{name}: {empty}");
        assert!(in_use.count() > 900, "{name}");
    }
    Ok(())
}

/// The shortest time of some checks that all give this answer.
fn check_time(words: &[u64], answer: u64) -> f64 {
    let once = |_| {
        let start = processor_time();
        assert_eq!(Linked.check(words).answer, answer);
        processor_time() - start
    };
    measure::least(&(0..20).map(once).collect::<Vec<_>>())
}

/// What the byte passes do not pass is looked at again, and that once: a pool in which every leaf is bad,
/// or every node above the leaves, is refused at the first.
#[test]
fn a_pool_of_bad_nodes_ends_at_the_first() -> Result<(), String> {
    let kinds = kinds::kinds();
    for (name, shift) in [("orders 0 and 1, gaps, marks", 0), ("orders 6 and 7, gaps, marks", 6)] {
        let kind = kinds.iter().find(|kind| kind.name == name).ok_or(name)?;
        let good = kinds::pool(&Linked, kind, MOST_NODES)?;
        let mut bad = good.clone();
        let nodes: Vec<usize> =
            (0..MOST_NODES).filter(|node| good[node_place(*node)] == shift + 1).collect();
        assert!(nodes.len() > MOST_NODES / 2);
        // A sibling that follows nothing, and the count that goes with it.
        for node in nodes {
            bad[slot_place(node, 0)] = sibling_word(0);
            bad[count_place(node)] = filled_slots(&bad, node);
        }
        let (good, bad) = (check_time(&good, 0), check_time(&bad, 2));
        assert!(100.0 * bad < good, "{name}: {bad} against {good} ns");
    }
    Ok(())
}

#[test]
fn checks_over_their_limits_are_named() {
    let row =
        |name, check, or| beside_or::Row::with(name, &[check, check, 2.0 * check], &[or, or, or]);
    let rows = [
        row(kinds::DENSE, 150.0, 100.0),
        row(kinds::HOLES, 200.0, 100.0),
        row("one", 999.0, 100.0),
    ];
    let verdict = beside_or::verdict(&rows);
    assert_eq!(verdict.matches("none").count(), 3, "{verdict}");
    let rows = [
        row(kinds::DENSE, 151.0, 100.0),
        row(kinds::HOLES, 201.0, 100.0),
        row("one", 1001.0, 100.0),
    ];
    assert_eq!(
        beside_or::verdict(&rows),
        "From memory, over 10 times the OR: one; over 1.5 of the dense one: dense, full; over 2 of that with holes: random holes."
    );
}

#[test]
fn checks_beside_an_or_run() -> Result<(), String> {
    let rows = beside_or::rows(40, 2)?;
    assert_eq!(rows.len(), kinds::kinds().len());
    assert_eq!(beside_or::table(40, &rows).lines().count(), rows.len() + 2);
    Ok(())
}

/// In the largest pool it is not the shortest times that count: of (run, check) these are 100 and 50,
/// while the median of the differences is 30.
#[test]
fn the_largest_pools_are_measured_by_medians() {
    let time = |(run, check)| measure::Time { run, check };
    let times = [(130.0, 100.0), (100.0, 99.0), (200.0, 50.0)].map(time);
    let middle = measure::middle(&times);
    assert_eq!((middle.check, middle.run - middle.check), (99.0, 30.0));
    let least = measure::shortest(&times);
    assert_eq!((least.run, least.check), (100.0, 50.0));
}

#[test]
fn a_table_of_three_sizes() {
    let costs =
        [100.0, 200.0, 400.0].map(|run| Cost { commands: 10, batches: 1, run, check: 50.0 });
    let text = table::by_nodes("where", [40, 1000, 16_384], &[ByNodes { name: "one", costs }]);
    let heading = "| where, ns a command without the check | N = 40 | N = 1,000 | N = 16,384 \
                   | 16,384 against 40 | check a batch at 40, 1,000, 16,384 |";
    let row = "| one | 5.0 | 15.0 | 35.0 | 7.00 times | 50, 50, 50 ns |";
    assert_eq!(text, format!("{heading}\n|---|---|---|---|---|---|\n{row}\n"));
}

/// The pictures of docs/ are those of the figures that stand beside them, and another figure is another picture.
#[test]
fn pictures_are_of_the_figures() {
    let text = include_str!("../../docs/BENCHMARKS.md");
    let there = [include_str!("../../docs/engines.svg"), include_str!("../../docs/benchmarks.svg")];
    for ((name, svg), there) in crate::pictures(text).expect("pictures").into_iter().zip(there) {
        assert!(
            svg == there,
            "docs/{name} is not drawn from docs/BENCHMARKS.md: bench redraw docs"
        );
    }
    let altered =
        text.replacen("| 1.42, 1.41 |", "| 1.52, 1.41 |", 1).replacen("| 13.9 |", "| 14.9 |", 1);
    for ((name, svg), there) in crate::pictures(&altered).expect("pictures").into_iter().zip(there)
    {
        assert!(svg != there, "{name} does not follow its figures");
    }
}
