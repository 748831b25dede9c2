//! Preparing a command and applying its script (P11), beside the check and the uncut command.

use crate::loads::Random;
use crate::measure::{least, median, nanoseconds};
use std::time::Instant;
use xapool_host::raw::{self, RawResult};
use xapool_host::{Command, Pool, Script, Word, MOST_NODES, REPLY_BYTES};

pub const USAGE: &str = "\
usage: bench scripts [--rounds N]
  --rounds    in each a command is prepared, applied and run once on each pool; 50 if not named
Exit status: 0 fine, 1 a script is not what the command does, 2 bad usage.";

pub const ROUNDS: u32 = 50;
const NODES: [usize; 2] = [1000, MOST_NODES];
/// Preparing takes at most so many times what the check takes, in the largest pools, for scripts of so many words.
const LIMIT: f64 = 1.5;
const LIMITED_WORDS: usize = 10_000;
/// Sparse entries lie below this.
const SPARSE_BELOW: u64 = 1 << 24;

/// A pool, and the indices of some of its entries.
struct Kind {
    name: &'static str,
    pool: Pool<'static>,
    there: Vec<u64>,
}

/// A command on a pool, and its nanoseconds in each round.
pub struct Row {
    kind: &'static str,
    name: &'static str,
    nodes: usize,
    /// Of the script.
    words: usize,
    check: Vec<f64>,
    prepare: Vec<f64>,
    apply: Vec<f64>,
    run: Vec<f64>,
}

fn store(index: u64, order: u8) -> Command {
    Command::Store { index, order, word: Word(5) }
}

/// Entries of order 0 side by side, with some nodes left.
fn dense(nodes: usize) -> Result<Kind, String> {
    let mut pool = Pool::new(nodes).map_err(|error| error.to_string())?;
    let entries = 62 * (nodes as u64 - 80);
    run_all(&mut pool, (0..entries).map(|index| store(index, 0)))?;
    Ok(Kind { name: "dense", pool, there: (entries / 2..entries / 2 + 8).collect() })
}

/// Entries of order 0 at random, nine tenths of the nodes in use.
fn sparse(nodes: usize) -> Result<Kind, String> {
    let mut pool = Pool::new(nodes).map_err(|error| error.to_string())?;
    let (mut random, mut there) = (Random(21), Vec::new());
    while pool.nodes_in_use() < nodes * 9 / 10 {
        let indices: Vec<u64> = (0..nodes / 100).map(|_| random.below(SPARSE_BELOW)).collect();
        run_all(&mut pool, indices.iter().map(|index| store(*index, 0)))?;
        there.extend(indices);
    }
    Ok(Kind { name: "sparse", pool, there })
}

fn run_all(pool: &mut Pool, commands: impl Iterator<Item = Command>) -> Result<(), String> {
    let replies = pool.run_all(commands).map_err(|error| error.to_string())?;
    replies.all_done().map(|_| ()).map_err(|error| error.to_string())
}

impl Kind {
    /// Each kind of change: words alone, marks up to the anchor, new nodes, freed nodes, a new head.
    fn commands(&mut self) -> Result<Vec<(&'static str, Command)>, String> {
        let at = |number: usize| self.there[number % self.there.len()];
        let [one, two, three, four] = [at(0), at(1), at(2), at(3)];
        run_all(&mut self.pool, [Command::Mark { index: two, mark: 0 }].into_iter())?;
        // Behind all entries of both kinds, in a node that there is not.
        let behind = SPARSE_BELOW - 64 * 1000 + 7;
        Ok(vec![
            ("mark", Command::Mark { index: one, mark: 2 }),
            ("unmark", Command::Unmark { index: two, mark: 0 }),
            ("store over an entry", Command::Store { index: three, order: 0, word: Word(9) }),
            ("store of a new entry, new nodes", store(behind, 0)),
            ("store, the head grows", store(1 << 40, 0)),
            ("erase", Command::Erase { index: four }),
            ("store of order 6", store(one >> 6 << 6, 6)),
            ("store of order 12", store(one >> 12 << 12, 12)),
            ("reserve", Command::Reserve { index: behind }),
        ])
    }
}

/// A call that must be done.
fn done(what: &str, result: RawResult) -> Result<(), String> {
    (result.answer == 0).then_some(()).ok_or_else(|| format!("{what} gives {result:?}"))
}

/// The time of one call, which must be done.
fn timed(what: &str, call: impl FnOnce() -> RawResult) -> Result<f64, String> {
    let start = Instant::now();
    let result = call();
    let time = nanoseconds(start);
    done(what, result).map(|()| time)
}

impl Row {
    fn new(kind: &Kind, name: &'static str, script: &Script) -> Row {
        let [check, prepare, apply, run] = [(); 4].map(|()| Vec::new());
        let (nodes, words) = (kind.pool.nodes().unwrap_or(0), script.words().len());
        Row { kind: kind.name, name, nodes, words, check, prepare, apply, run }
    }

    /// Each call once, on one pool, which is as it was afterwards.
    fn round(&mut self, pool: &mut [u64], record: &[u8], script: &Script) -> Result<(), String> {
        let (words, mut reply) = (script.words(), [0; REPLY_BYTES]);
        let undo: Vec<u64> = script
            .changes()
            .iter()
            .flat_map(|change| [change.place as u64, change.before])
            .collect();
        let mut space = vec![0; words.len()];
        self.check.push(timed("check", || raw::check(pool))?);
        self.prepare.push(timed("prepare", || raw::prepare(pool, record, &mut space))?);
        self.apply.push(timed("apply", || raw::apply(pool, &space))?);
        done("undo", raw::apply(pool, &undo))?;
        self.run.push(timed("run", || raw::run(pool, record, &mut reply))?);
        done("undo", raw::apply(pool, &undo))?;
        (space == words).then_some(()).ok_or_else(|| "another script".into())
    }

    /// Preparing as a multiple of the check: of the shortest times, and of the medians.
    fn ratios(&self) -> (f64, f64) {
        (least(&self.prepare) / least(&self.check), median(&self.prepare) / median(&self.check))
    }

    /// By the shortest times or the medians.
    fn is_over(&self) -> bool {
        let (short, middle) = self.ratios();
        let limited = self.nodes == MOST_NODES && self.words <= LIMITED_WORDS;
        limited && (short > LIMIT || middle > LIMIT)
    }
}

/// The script of a command is what the uncut command changes, and nothing else.
fn script_of(pool: &Pool, command: Command) -> Result<Script, String> {
    let script = pool.prepare(command).map_err(|error| error.to_string())?;
    let (mut applied, mut uncut) = (pool.clone(), pool.clone());
    applied.apply_script(&script).map_err(|error| error.to_string())?;
    run_all(&mut uncut, [command].into_iter())?;
    let same = applied.words() == uncut.words();
    same.then_some(script).ok_or_else(|| "the script is not what the command does".into())
}

pub fn rows(rounds: u32) -> Result<Vec<Row>, String> {
    rows_of(&NODES, rounds)
}

fn rows_of(sizes: &[usize], rounds: u32) -> Result<Vec<Row>, String> {
    let mut rows = Vec::new();
    for nodes in sizes {
        for mut kind in [dense(*nodes)?, sparse(*nodes)?] {
            for (name, command) in kind.commands()? {
                let named = |error| format!("{name}, {}, N = {nodes}: {error}", kind.name);
                let script = script_of(&kind.pool, command).map_err(named)?;
                let mut record = Vec::new();
                command.write(&mut record);
                let mut row = Row::new(&kind, name, &script);
                for _ in 0..rounds {
                    row.round(kind.pool.words_mut(), &record, &script).map_err(named)?;
                }
                rows.push(row);
            }
        }
    }
    Ok(rows)
}

pub fn table(rows: &[Row]) -> String {
    let mut text = String::from(
        "| one command, by a script | N | words of the script | check, µs, shortest, median | preparing, µs | times the check | applying, µs | xapool_run of the record, µs |\n\
         |---|---|---|---|---|---|---|---|\n",
    );
    let shown = |times: &[f64]| format!("{:.2}, {:.2}", least(times) / 1e3, median(times) / 1e3);
    for row in rows {
        let (short, middle) = row.ratios();
        text += &format!(
            "| {}, {} | {} | {} | {} | {} | {short:.2}, {middle:.2} | {} | {} |\n",
            row.name,
            row.kind,
            row.nodes,
            row.words,
            shown(&row.check),
            shown(&row.prepare),
            shown(&row.apply),
            shown(&row.run)
        );
    }
    text
}

/// Which are over the limit.
pub fn verdict(rows: &[Row]) -> String {
    let over: Vec<String> = rows
        .iter()
        .filter(|row| row.is_over())
        .map(|row| {
            let (short, middle) = row.ratios();
            format!("{}, {} ({short:.2}, {middle:.2})", row.name, row.kind)
        })
        .collect();
    let over = if over.is_empty() { "none".into() } else { over.join("; ") };
    format!(
        "At {MOST_NODES} nodes, of scripts up to {LIMITED_WORDS} words, preparing takes more than {LIMIT} times the check: {over}."
    )
}

pub fn measure(mut words: impl Iterator<Item = String>) -> Option<Result<(), String>> {
    let rounds = match (words.next().as_deref(), words.next()) {
        (None, _) => ROUNDS,
        (Some("--rounds"), Some(rounds)) => rounds.parse().ok().filter(|rounds| *rounds > 0)?,
        _ => return None,
    };
    Some(rows(rounds).map(|rows| println!("{}\n{}", table(&rows), verdict(&rows))))
}

#[cfg(test)]
mod tests {
    use super::*;

    #[test]
    fn commands_are_what_they_are_called() -> Result<(), String> {
        let rows = rows_of(&[400], 2)?;
        assert_eq!(rows.len(), 18);
        let words = |kind: &str, name: &str| {
            let is = |row: &&Row| row.kind == kind && row.name == name;
            rows.iter().find(is).expect("a row").words
        };
        for kind in ["dense", "sparse"] {
            assert_eq!(words(kind, "store over an entry"), 2);
            assert!(words(kind, "mark") >= 6 && words(kind, "unmark") >= 4);
            assert!(words(kind, "store, the head grows") > words(kind, "store over an entry") + 20);
            assert!(words(kind, "store of a new entry, new nodes") >= 12);
        }
        // A leaf of 64 entries is freed, and 64 of them with the node over them.
        assert!(words("dense", "store of order 6") > 2 * 64);
        assert!((8000..LIMITED_WORDS).contains(&words("dense", "store of order 12")));
        assert_eq!(table(&rows).lines().count(), 20);
        Ok(())
    }

    #[test]
    fn what_is_over_the_limit_is_named() -> Result<(), String> {
        let mut rows = rows_of(&[400], 1)?;
        rows.truncate(2);
        for row in &mut rows {
            (row.nodes, row.check) = (MOST_NODES, vec![100.0]);
            row.prepare = vec![150.0];
        }
        assert!(verdict(&rows).ends_with("the check: none."));
        rows[1].prepare = vec![120.0, 151.0, 152.0];
        assert!(verdict(&rows).ends_with("the check: unmark, dense (1.20, 1.51)."));
        rows[1].prepare = vec![151.0];
        assert!(verdict(&rows).ends_with("the check: unmark, dense (1.51, 1.51)."));
        rows[1].words = LIMITED_WORDS + 1;
        assert!(verdict(&rows).ends_with("the check: none."));
        (rows[1].words, rows[1].nodes) = (2, 1000);
        assert!(verdict(&rows).ends_with("the check: none."));
        Ok(())
    }
}
