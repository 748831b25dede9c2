//! Two builds of the library measured in one run: `bench against BEFORE AFTER`.

use crate::checks;
use crate::library::{Library, Loaded};
use crate::loads::{dense, marked_finds, sparse, Load, OLDER};
use crate::measure::{empty_pool, Cost, Trial};
use crate::{finds, free, lists, stores};

pub const USAGE: &str = "\
usage: bench against BEFORE AFTER [--only find|store|free|check|list] [--rounds N] [--indices N]
  BEFORE, AFTER   shared objects, made of two builds of libxapool.a by scripts/bench-against
  --only      finds, or stores and all else that writes or loads, or stores where few nodes are free, or
              the check, or lists (where both builds have them); all if not named
  --rounds    of all loads by each build, in turns; of each batch the shortest time counts; 20 if not named
  --indices   of the dense loads; 60,000 if not named
A build from before P7, whose nodes have a word less, is compared by its replies alone, and only
with --only find or --only store.
Exit status: 0 fine, 1 the builds differ in a word or a reply, or a call was refused, 2 bad usage.";

struct Options {
    builds: [String; 2],
    only: Option<String>,
    rounds: u32,
    indices: u64,
}

impl Options {
    fn wants(&self, name: &str) -> bool {
        self.only.as_ref().is_none_or(|only| only == name)
    }
}

fn options(mut words: impl Iterator<Item = String>) -> Option<Options> {
    let builds = [words.next()?, words.next()?];
    let mut options = Options { builds, only: None, rounds: 20, indices: 60_000 };
    while let Some(name) = words.next() {
        let value = words.next()?;
        match name.as_str() {
            "--only" => {
                let known = ["find", "store", "free", "check", "list"].contains(&value.as_str());
                options.only = Some(known.then_some(value)?)
            }
            "--rounds" => options.rounds = value.parse().ok().filter(|n| *n > 0)?,
            "--indices" => {
                options.indices = value.parse().ok().filter(|n| (500..=60_000).contains(n))?
            }
            _ => return None,
        }
    }
    Some(options)
}

/// None: bad usage.
pub fn run(words: impl Iterator<Item = String>) -> Option<Result<(), String>> {
    Some(measure(&options(words)?))
}

/// The loads of each table.
struct Loads {
    find: Vec<Load>,
    store: Vec<Load>,
    free: Vec<Load>,
    full: Vec<Load>,
}

impl Loads {
    fn wanted(options: &Options, most_nodes: usize) -> Loads {
        let wanted = |name: &str| options.wants(name);
        let count = options.indices;
        let full = || vec![dense(count), sparse(count / 2, OLDER), marked_finds(count, count / 2)];
        Loads {
            find: if wanted("find") { finds::loads(count) } else { Vec::new() },
            store: if wanted("store") { stores::loads(count) } else { Vec::new() },
            free: if wanted("free") { free_loads(most_nodes) } else { Vec::new() },
            full: if wanted("check") { full() } else { Vec::new() },
        }
    }
}

fn measure(options: &Options) -> Result<(), String> {
    let [before, after] = [&options.builds[0], &options.builds[1]].map(|path| Loaded::open(path));
    let (before, after) = (before?, after?);
    let libraries: [&dyn Library; 2] = [&before, &after];
    let most_nodes = free::NODES.into_iter().filter(|nodes| all_take(&libraries, *nodes)).max();
    let loads = Loads::wanted(options, most_nodes.unwrap_or(0));
    let trials = |loads| trials(&libraries, loads);
    let [find, store, free] = [trials(&loads.find)?, trials(&loads.store)?, trials(&loads.free)?];
    let mut sets = [find, store, free, trials(&loads.full)?];
    let checks = !loads.full.is_empty();
    let mut checks = if checks { checks::trials(&libraries)? } else { Vec::new() };
    let mut lists = match options.wants("list") {
        true => lists::trials(&libraries, options.indices)?,
        false => Vec::new(),
    };
    // All loads in each round: a machine that is busy for a while is so for a part of each.
    for round in 0..options.rounds {
        sets.iter_mut().flatten().try_for_each(|trial| trial.round(&libraries, round))?;
        checks.iter_mut().try_for_each(|trial| trial.round(&libraries, round))?;
        lists.iter_mut().try_for_each(|trial| trial.round(&libraries, round))?;
    }
    let [find, store, free, full] = sets;
    print!("{}{}{}", load_table(&find), load_table(&store), load_table(&free));
    print!("{}", list_table(&lists));
    print!("{}{}{}", check_table(&checks), bad_table(&checks), share_table(&full));
    Ok(())
}

/// Whether every build takes a pool of so many nodes: an older one takes fewer.
fn all_take(libraries: &[&dyn Library], nodes: usize) -> bool {
    libraries.iter().all(|library| empty_pool(*library, nodes).is_ok())
}

/// At each size up to this; the name does not say it, so the text does.
fn free_loads(most_nodes: usize) -> Vec<Load> {
    let sizes = free::NODES.into_iter().filter(|nodes| *nodes <= most_nodes);
    let named = |load: Load| Load { about: format!("N = {}, {}", load.nodes, load.about), ..load };
    sizes.flat_map(free::loads).map(named).collect()
}

fn trials<'a>(libraries: &[&dyn Library], loads: &'a [Load]) -> Result<Vec<Trial<'a>>, String> {
    loads.iter().map(|load| Trial::new(libraries, load, load.nodes)).collect()
}

/// A heading and its lines, and a line between tables; nothing if there are none.
fn table(heading: &str, lines: Vec<String>) -> String {
    if lines.is_empty() {
        return String::new();
    }
    let columns = heading.matches('|').count() - 1;
    format!("{heading}\n|{}\n{}\n", "---|".repeat(columns), lines.concat())
}

fn load_table(trials: &[Trial]) -> String {
    let line = |trial: &Trial| {
        let (name, about, costs) = (trial.load.name, &trial.load.about, trial.costs());
        let [before, after] = [costs[0], costs[1]].map(Cost::run_less_check);
        let (commands, ratio) = (costs[0].commands, after / before);
        format!("| {name}: {about} | {commands} | {before:.1} | {after:.1} | {ratio:.2} |\n")
    };
    let heading =
        "| load | commands | ns a command without the check, before | after | after / before |";
    table(heading, trials.iter().map(line).collect())
}

fn list_table(trials: &[lists::Trial]) -> String {
    let line = |trial: &lists::Trial| {
        let (about, entries, costs) = (&trial.about, trial.entries, trial.costs());
        let [before, after] = [costs[0], costs[1]].map(|cost| cost / entries as f64);
        let ratio = after / before;
        format!("| {about} | {entries} | {before:.1} | {after:.1} | {ratio:.2} |\n")
    };
    let heading =
        "| list | entries | ns an entry without the check, before | after | after / before |";
    table(heading, trials.iter().map(line).collect())
}

fn share_table(trials: &[Trial]) -> String {
    let line = |trial: &Trial| {
        let costs = trial.costs();
        let [a, b] = [costs[0], costs[1]].map(|cost| cost.check_a_batch() / 1000.0);
        let [c, d] = [costs[0], costs[1]].map(Cost::check_share);
        format!("| {} | {a:.1} | {b:.1} | {c:.0} % | {d:.0} % |\n", trial.load.name)
    };
    let heading =
        "| full batches | check, µs a batch, before | after | its share of a run, before | after |";
    table(heading, trials.iter().map(line).collect())
}

fn check_table(trials: &[checks::Trial]) -> String {
    let line = |trial: &checks::Trial| {
        let (before, after) = (trial.good()[0], trial.good()[1]);
        let pace = |time: f64| 8.0 * trial.words() as f64 / time;
        format!(
            "| {} | {} | {:.2} | {:.2} | {:.2} | {:.1} | {:.1} | {:.2} | {:.1} | {:.1} |\n",
            trial.name,
            trial.nodes,
            before / 1000.0,
            after / 1000.0,
            after / before,
            pace(before),
            pace(after),
            trial.or / 1000.0,
            before / trial.or,
            after / trial.or
        )
    };
    let heading = "| check of a good pool | N | µs before | µs after | after / before | GB/s before | GB/s after \
                   | an OR, µs | times the OR, before | after |";
    table(heading, trials.iter().map(line).collect())
}

fn bad_table(trials: &[checks::Trial]) -> String {
    let line = |trial: &checks::Trial| {
        let micros = |times: Option<&[f64]>| match times {
            Some(times) => format!(" {:.2} | {:.2} |", times[0] / 1000.0, times[1] / 1000.0),
            None => " - | - |".into(),
        };
        let slowest = trial.bad().into_iter().flatten().map(|times| times[1]).fold(0.0, f64::max);
        let times = trial.bad().map(micros).concat();
        let ratio = slowest / trial.good()[1];
        format!("| {} | {} |{times} {ratio:.2} |\n", trial.name, trial.nodes)
    };
    let columns = checks::WRONG.map(|name| format!(" {name}, µs before | after |")).concat();
    let heading = format!("| one wrong word | N |{columns} the slowest after / good after |");
    table(&heading, trials.iter().map(line).collect())
}
