//! The check of each kind of pool in its largest size beside a plain OR of the same words, in turns.

use crate::checks::or_all;
use crate::kinds::{kinds, pool, Kind, DENSE, HOLES};
use crate::library::{processor_time, Library, Linked};
use crate::measure::{least, median};
use crate::table::grouped;
use std::hint::black_box;
use xapool_host::MOST_NODES;

pub const USAGE: &str = "\
usage: bench checks [--rounds N] [--nodes N]
  --rounds    in each all pools are checked in turn, each twice, then an OR of each as often; 100 if not named
  --nodes     of each pool; 16,384, the most, if not named
Exit status: 0 fine, 1 a call was refused, 2 bad usage.";

pub const ROUNDS: u32 = 100;

/// A check is to take at most so many times an OR: of any pool, of a dense one, of one with holes.
const ANY_LIMIT: f64 = 10.0;
const DENSE_LIMIT: f64 = 1.5;
const HOLES_LIMIT: f64 = 2.0;

/// Nanoseconds of processor time of each check and of each OR.
#[derive(Default)]
struct Times {
    check: Vec<f64>,
    or: Vec<f64>,
}

impl Times {
    /// By the shortest times, and by the medians.
    fn ratios(&self) -> [f64; 2] {
        [least(&self.check) / least(&self.or), median(&self.check) / median(&self.or)]
    }

    fn columns(&self) -> String {
        let [short, middle] = self.ratios();
        let [check, or] = [&self.check, &self.or].map(|times| micros(times));
        format!("{check} | {or} | {short:.2}, {middle:.2}")
    }
}

/// A kind of pool: its words come from memory, or have just been read.
pub struct Row {
    pub name: &'static str,
    words: Vec<u64>,
    far: Times,
    near: Times,
}

impl Row {
    #[cfg(test)]
    pub fn with(name: &'static str, check: &[f64], or: &[f64]) -> Row {
        let far = Times { check: check.to_vec(), or: or.to_vec() };
        Row { name, words: Vec::new(), far, near: Times::default() }
    }

    fn check(&mut self) -> Result<(), String> {
        for times in [&mut self.far, &mut self.near] {
            let start = processor_time();
            let answer = Linked.check(black_box(&self.words)).answer;
            times.check.push(processor_time() - start);
            if answer != 0 {
                return Err(format!("{}: the check answers {answer}", self.name));
            }
        }
        Ok(())
    }

    fn or(&mut self) {
        for times in [&mut self.far, &mut self.near] {
            let start = processor_time();
            black_box(or_all(black_box(&self.words)));
            times.or.push(processor_time() - start);
        }
    }

    /// Whether it takes more times the OR from memory, by the shortest times or the medians.
    fn more_than(&self, limit: f64) -> bool {
        self.far.ratios().into_iter().any(|times| times > limit)
    }
}

pub fn rows(nodes: usize, rounds: u32) -> Result<Vec<Row>, String> {
    let row = |kind: Kind| {
        let words = pool(&Linked, &kind, nodes)?;
        Ok(Row { name: kind.name, words, far: Times::default(), near: Times::default() })
    };
    let mut rows = kinds().into_iter().map(row).collect::<Result<Vec<Row>, String>>()?;
    // All pools in each turn: so each is out of the cache when its turn comes, and a machine that is busy
    // for a while is so for a part of each.
    for _ in 0..rounds {
        rows.iter_mut().try_for_each(Row::check)?;
        rows.iter_mut().for_each(Row::or);
    }
    Ok(rows)
}

fn micros(times: &[f64]) -> String {
    format!("{:.0}, {:.0}", least(times) / 1000.0, median(times) / 1000.0)
}

pub fn table(nodes: usize, rows: &[Row]) -> String {
    let mut text = format!(
        "| check of a well-formed pool, N = {} | from memory, µs a check | an OR of its words, µs | times the OR \
         | from the cache, µs a check | an OR, µs | times the OR |\n|---|---|---|---|---|---|---|\n",
        grouped(nodes)
    );
    for row in rows {
        text += &format!("| {} | {} | {} |\n", row.name, row.far.columns(), row.near.columns());
    }
    text
}

/// Which pools do not keep their limit, by the shortest times or the medians.
pub fn verdict(rows: &[Row]) -> String {
    let over = |limit: f64, among: &dyn Fn(&Row) -> bool| {
        let over = |row: &&Row| among(row) && row.more_than(limit);
        let names: Vec<&str> = rows.iter().filter(over).map(|row| row.name).collect();
        if names.is_empty() {
            "none".to_string()
        } else {
            names.join("; ")
        }
    };
    let any = over(ANY_LIMIT, &|_| true);
    let dense = over(DENSE_LIMIT, &|row| row.name == DENSE);
    let holes = over(HOLES_LIMIT, &|row| row.name == HOLES);
    format!(
        "From memory, over {ANY_LIMIT} times the OR: {any}; over {DENSE_LIMIT} of the dense one: {dense}; over {HOLES_LIMIT} of that \
         with holes: {holes}."
    )
}

fn options(mut words: impl Iterator<Item = String>) -> Option<(u32, usize)> {
    let (mut rounds, mut nodes) = (ROUNDS, MOST_NODES);
    while let Some(name) = words.next() {
        let value = words.next()?;
        match name.as_str() {
            "--rounds" => rounds = value.parse().ok().filter(|n| *n > 0)?,
            "--nodes" => nodes = value.parse().ok().filter(|n| (1..=MOST_NODES).contains(n))?,
            _ => return None,
        }
    }
    Some((rounds, nodes))
}

/// None: bad usage.
pub fn measure(words: impl Iterator<Item = String>) -> Option<Result<(), String>> {
    let (rounds, nodes) = options(words)?;
    let rows = rows(nodes, rounds);
    Some(rows.map(|rows| println!("{}\n{}", table(nodes, &rows), verdict(&rows))))
}
