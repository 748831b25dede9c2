//! bench: loads through xapool_run beside the engines of engine/, three of them also over a BTreeMap,
//! the cost by nodes, that of free nodes, lists, digests and comparisons, the check beside an OR,
//! look-ups of evidence, and commands by a script.
//! With `engines` that with the engines alone, with `checks` that of the check, with `evidence` a look-up
//! in a sheet, with `plain` the library's two engines, with `scripts` preparing and applying; with `against` two builds of the library in one run; with `redraw` the pictures of the figures in BENCHMARKS.md.

mod against;
mod beside_or;
mod checks;
mod engine_plot;
mod engines;
mod figures;
mod finds;
mod free;
mod kinds;
mod library;
mod lists;
mod loads;
mod measure;
mod plain;
mod plot;
mod regions;
mod scripts;
mod sheets;
mod stores;
mod table;
#[cfg(test)]
mod tests;
mod two_engines;

use library::Linked;
use loads::Load;
use std::path::Path;
use std::process::ExitCode;
use std::{env, fs};
use table::{ByNodes, ListRow, Row, NODES};
use xapool_host::MOST_NODES;

/// The pool has room for 62,000 or so.
const MOST_INDICES: u64 = 60_000;

const USAGE: &str = "\
usage: bench [--indices N] [--repeats N] [--small-repeats N] [--rounds N] [--write DIR]
  --indices   of the dense load, and the commands of the others; 60,000 if not named
  --repeats   of each load; of each batch the shortest time counts; 5 if not named
  --small-repeats   of the small loads, which take microseconds; 200 if not named
  --rounds    of the loads beside the engines; 100 if not named
  --write     writes BENCHMARKS.md, engines.svg and benchmarks.svg to this folder
       bench engines ..   the loads beside the engines alone
       bench checks ..    the check of pools of many kinds beside an OR of their words
       bench evidence ..  a look-up in a sheet of 1 MB beside plain reading
       bench plain ..     the plain engine beside the tree, for 40, 400 and 4,096 entries
       bench scripts ..   preparing a command and applying its script, beside the check and the uncut command
       bench against ..   two builds in one run: scripts/bench-against
       bench redraw DIR   engines.svg and benchmarks.svg anew, from DIR/BENCHMARKS.md; nothing is measured
Exit status: 0 fine, 1 a call was refused or a file could not be written, 2 bad usage.";

struct Options {
    indices: u64,
    repeats: u32,
    small_repeats: u32,
    rounds: u32,
    write: Option<String>,
}

fn options() -> Option<Options> {
    let (indices, rounds) = (MOST_INDICES, engines::ROUNDS);
    let mut options = Options { indices, repeats: 5, small_repeats: 200, rounds, write: None };
    let mut words = env::args().skip(1);
    while let Some(name) = words.next() {
        let value = words.next()?;
        match name.as_str() {
            "--indices" => {
                options.indices = value.parse().ok().filter(|n| (100..=MOST_INDICES).contains(n))?
            }
            "--repeats" => options.repeats = value.parse().ok().filter(|n| *n > 0)?,
            "--small-repeats" => options.small_repeats = value.parse().ok().filter(|n| *n > 0)?,
            "--rounds" => options.rounds = value.parse().ok().filter(|n| *n > 0)?,
            "--write" => options.write = Some(value),
            _ => return None,
        }
    }
    Some(options)
}

fn main() -> ExitCode {
    let mode = env::args().nth(1).unwrap_or_default();
    let (measured, usage) = match mode.as_str() {
        "against" => (against::run(env::args().skip(2)), against::USAGE),
        "checks" => (beside_or::measure(env::args().skip(2)), beside_or::USAGE),
        "evidence" => (sheets::measure(env::args().skip(2)), sheets::USAGE),
        "scripts" => (scripts::measure(env::args().skip(2)), scripts::USAGE),
        "plain" => (two_engines::measure(env::args().skip(2)), two_engines::USAGE),
        "engines" => (engines::measure(env::args().skip(2)), engines::USAGE),
        "redraw" => (env::args().nth(2).map(|folder| redraw(&folder)), USAGE),
        _ => (options().map(|options| measure_all(&options)), USAGE),
    };
    match measured {
        Some(Ok(())) => ExitCode::SUCCESS,
        Some(Err(message)) => {
            eprintln!("bench: {message}");
            ExitCode::from(1)
        }
        None => {
            eprintln!("{usage}");
            ExitCode::from(2)
        }
    }
}

fn measure_all(options: &Options) -> Result<(), String> {
    let engines = engines::rows(options.indices, options.rounds)?;
    let engines_text = format!("{}\n{}\n", engines::table(&engines), engines::verdict(&engines));
    println!("{engines_text}");
    let tables = measure_alone(options)?;
    println!("{tables}");
    match &options.write {
        Some(folder) => write(folder, &engines_text, &tables).and_then(|()| redraw(folder)),
        None => Ok(()),
    }
}

/// The tables without the engines.
fn measure_alone(options: &Options) -> Result<String, String> {
    let count = options.indices;
    let sparse = loads::sparse(count, loads::BATCH_OF_STORES);
    let mut rows = Vec::new();
    for load in [loads::dense(count), sparse, loads::marked_finds(count, count)] {
        rows.push(row(load, options.repeats)?);
    }
    let mut by_nodes = Vec::new();
    for load in loads::small() {
        by_nodes.push(costs_by_nodes(&load, options.small_repeats)?);
    }
    let free = free_nodes(options)?;
    let lists = lists(count, options.small_repeats)?;
    let nodes_text = table::by_nodes("the same commands", NODES, &by_nodes);
    let free_text = table::by_nodes("where few nodes are free", free::NODES, &free);
    // A small run has small regions alone.
    let largest = if count < MOST_INDICES { 1 << 20 } else { usize::MAX };
    let regions = regions::rows(largest, options.repeats)?;
    let checks = beside_or::rows(MOST_NODES, options.small_repeats.div_ceil(2))?;
    let checks_text =
        format!("{}\n{}\n", beside_or::table(MOST_NODES, &checks), beside_or::verdict(&checks));
    let scripts = scripts::rows(options.small_repeats.div_ceil(4))?;
    let texts = [
        table::loads(&rows),
        nodes_text,
        free_text,
        checks_text,
        table::lists(&lists),
        table::regions(&regions),
        sheets::table(&sheets::rows(options.small_repeats)?),
        two_engines::table(&two_engines::rows(options.small_repeats.div_ceil(2))?),
        format!("{}\n{}\n", scripts::table(&scripts), scripts::verdict(&scripts)),
    ];
    Ok(texts.join("\n"))
}

fn lists(indices: u64, repeats: u32) -> Result<Vec<ListRow>, String> {
    let mut rows = Vec::new();
    for mut trial in lists::trials(&[&Linked], indices)? {
        (0..repeats).try_for_each(|round| trial.round(&[&Linked], round))?;
        let (call, check, map) = (trial.costs()[0], trial.check(), trial.map(repeats));
        rows.push(ListRow { about: trial.about, entries: trial.entries, call, check, map });
    }
    Ok(rows)
}

fn row(load: Load, repeats: u32) -> Result<Row, String> {
    let cost = cost(&load, load.nodes, repeats)?;
    let map = plain::cost(&load, repeats);
    Ok(Row { name: load.name, about: load.about, cost, map })
}

/// By the library that is linked.
fn cost(load: &Load, nodes: usize, repeats: u32) -> Result<measure::Cost, String> {
    let mut trial = measure::Trial::new(&[&Linked], load, nodes)?;
    (0..repeats).try_for_each(|round| trial.round(&[&Linked], round))?;
    Ok(trial.costs()[0])
}

fn costs_by_nodes(load: &Load, repeats: u32) -> Result<ByNodes, String> {
    let mut costs = [measure::Cost::default(); 3];
    for (cost, nodes) in costs.iter_mut().zip(NODES) {
        *cost = self::cost(load, nodes, repeats)?;
    }
    Ok(ByNodes { name: load.name, costs })
}

/// Each of its loads at each size; fewer repeats where the pool is larger.
fn free_nodes(options: &Options) -> Result<Vec<ByNodes>, String> {
    let mut rows: Vec<ByNodes> = Vec::new();
    for (at, nodes) in free::NODES.into_iter().enumerate() {
        let fewer = options.small_repeats * free::NODES[0] as u32 / nodes as u32;
        for (number, load) in free::loads(nodes).iter().enumerate() {
            if at == 0 {
                rows.push(ByNodes { name: load.name, costs: [measure::Cost::default(); 3] });
            }
            rows[number].costs[at] = cost(load, nodes, fewer.max(8 * options.repeats))?;
        }
    }
    Ok(rows)
}

fn processor() -> String {
    let all = fs::read_to_string("/proc/cpuinfo").unwrap_or_default();
    let named = all.lines().find_map(|line| line.strip_prefix("model name")?.split(": ").nth(1));
    named.unwrap_or("unknown processor").to_string()
}

fn put(folder: &str, name: &str, text: &str) -> Result<(), String> {
    let path = Path::new(folder).join(name);
    fs::write(&path, text).map_err(|error| format!("{}: {error}", path.display()))
}

/// What the first table says.
const BESIDE: &str = "\
    Times and ratios are two: from the shortest time of each batch of all rounds, and from its median; each is the mean \
    over all batches. The check is timed by an empty batch just before each, and the median without it is that of the \
    differences. The library and the two engines of [engine/](../engine) take the same batches in one process, in \
    turns, and every reply of an engine is compared with the library's byte for byte. All are release builds, the engines \
    by rustc at opt-level 3 (Cargo.toml). An engine has nodes of its own and so no pool to check.";

/// What the others say.
const ALONE: &str = "\
    Where few nodes are free: an entry erased and another stored at random with nine tenths of the nodes in use (churn); a \
    store that needs three nodes and its erase, with one low and the last two free; stores that end in answer 11. \
    A run and a list check their pool first, whose time grows with N and not with the commands; it is timed by an empty \
    batch on the same pool just before each (of a list by xapool_check), and taken off. Of each batch the shortest times of \
    all repeats count; with 16,384 nodes the median of the differences, as the check takes many times what the commands take. \
    The library reads records and writes replies as bytes; the BTreeMap takes its commands from memory, knows \
    order 0 alone and writes plain values. The GB/s of a \
    comparison are of each of the two regions. Of a check beside an OR the times are of the processor, the shortest and the median: all pools \
    are checked in turn, then an OR of each, so that the words come from memory; read again at once they come from the cache. The two in Rust are the usual loops over one table and over eight.";

/// The pictures, each with its name, of the text of BENCHMARKS.md.
fn pictures(benchmarks: &str) -> Result<[(&'static str, String); 2], String> {
    Ok([("engines.svg", engine_plot::svg(benchmarks)?), ("benchmarks.svg", plot::svg(benchmarks)?)])
}

fn redraw(folder: &str) -> Result<(), String> {
    let path = Path::new(folder).join("BENCHMARKS.md");
    let text = fs::read_to_string(&path).map_err(|error| format!("{}: {error}", path.display()))?;
    pictures(&text)?.iter().try_for_each(|(name, svg)| put(folder, name, svg))
}

fn write(folder: &str, engines: &str, tables: &str) -> Result<(), String> {
    let command: Vec<String> = env::args().skip(1).collect();
    let text = format!(
        "# What a command costs\n\n\
         Made by `cargo run --release -p bench -- {}`, on {}. Do not edit.\n\n\
         ## Beside an engine in ordinary Rust\n\n{engines}\n{BESIDE}\n\n\
         ![times an engine's time](engines.svg)\n\n\
         ## By itself\n\n{tables}\n{ALONE}\n\n\
         ![ns a command](benchmarks.svg)\n",
        command.join(" "),
        processor()
    );
    put(folder, "BENCHMARKS.md", &text)
}
