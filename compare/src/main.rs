//! compare: the library libxapool.a, the program tamburish and the engines of engine/ against
//! reference/, on random input.
//!
//! The library is the one that XAPOOL_LIB named when this was built; the programs are named by
//! TAMBURISH_BIN and REFERENCE_BIN. TAMBURISH_BIN=none leaves the program out.

mod applies;
mod apply_cases;
mod batches;
mod cases;
mod count_cases;
mod engines;
mod exhaustive;
mod figures;
mod finds;
mod gate_cases;
mod gates;
mod indices;
mod large_cases;
mod lend;
mod list;
mod listing_cases;
mod listings;
mod name_damage;
mod name_figures;
mod name_keys;
mod name_kinds;
mod name_pools;
mod name_shapes;
#[cfg(test)]
mod name_tests;
mod names;
mod os;
mod plain;
mod plain_cases;
mod plain_kinds;
mod plain_slices;
#[cfg(test)]
mod plain_tests;
mod pools;
mod prepare_cases;
mod prepare_kinds;
mod prepare_pools;
mod prepares;
mod program;
mod reserve_cases;
mod reserves;
mod shapes;
mod sheet_cases;
mod sheets;
mod stretch;
#[cfg(test)]
mod tests;
mod trial;
#[cfg(test)]
mod wrong_names;
#[cfg(test)]
mod wrong_prepares;

use figures::{Figures, Of};
use gates::LEAST_ROWS;
use names::LEAST_NAME_ROWS;
use os::{end_after, in_child, End};
use reference::random::Random;
use std::process::ExitCode;
use std::time::{Duration, Instant, SystemTime};
use trial::{Kind, Trial, LONGEST_SECONDS};

const USAGE: &str = "\
usage: compare [SECONDS [SEED]]     all of it, in about so many seconds (100 if none are named)
       compare cases                cases 2 to 15, the empty batch, the longest batches, those of requests
       compare changes              every single-word change of some pools
       compare engine SECONDS [SEED]   the engines of engine/ alone
       compare evidence SECONDS [SEED]   look-ups in sheets alone
       compare gates SECONDS [SEED]   gates alone, 12 million at least
       compare plain SECONDS [SEED]   the plain engine alone, and beside the tree
       compare apply SECONDS [SEED]   scripts applied, alone
       compare prepare SECONDS [SEED]   scripts prepared and then applied, alone
       compare names SECONDS [SEED]   pools of names alone
       compare again calls SEED     one list of calls, by the seed that was printed
       compare again finds SEED     one list of calls made for finds
       compare again engine SEED    one list of calls by the engines
       compare again evidence SEED  one look-up in sheets
       compare again gates SEED     one row of gates
       compare again plain SEED     one list of calls by the plain engine
       compare again apply SEED     one script, with its cuts
       compare again prepare SEED   one record prepared, into slices of several sizes
       compare again names SEED     one pool of names, and what is damaged in it
       compare again program SEED   one input of the program
The long run: compare 3600
Exit status: 0 no difference, 1 a difference, 2 bad usage or no program.";

const DEFAULT_SECONDS: u64 = 100;

fn main() -> ExitCode {
    let arguments: Vec<String> = std::env::args().skip(1).collect();
    let words: Vec<&str> = arguments.iter().map(String::as_str).collect();
    let same = match words[..] {
        [] => compare(DEFAULT_SECONDS, clock()),
        ["cases"] => with_program().map(compare_cases),
        ["changes"] => Ok(compare_changes(Figures::new())),
        ["engine", seconds] => number(seconds).map(|seconds| compare_engine(seconds, clock())),
        ["engine", seconds, seed] => {
            number(seconds).and_then(|s| Ok(compare_engine(s, number(seed)?)))
        }
        ["evidence", seconds] => number(seconds).map(|s| compare_evidence(s, clock())),
        ["evidence", seconds, seed] => {
            number(seconds).and_then(|s| Ok(compare_evidence(s, number(seed)?)))
        }
        ["gates", seconds] => number(seconds).map(|s| compare_gates(s, clock())),
        ["gates", seconds, seed] => {
            number(seconds).and_then(|s| Ok(compare_gates(s, number(seed)?)))
        }
        ["plain", seconds] => number(seconds).map(|s| compare_plain(s, clock())),
        ["plain", seconds, seed] => {
            number(seconds).and_then(|s| Ok(compare_plain(s, number(seed)?)))
        }
        ["apply", seconds] => number(seconds).map(|s| compare_apply(s, clock())),
        ["apply", seconds, seed] => {
            number(seconds).and_then(|s| Ok(compare_apply(s, number(seed)?)))
        }
        ["prepare", seconds] => number(seconds).map(|s| compare_prepare(s, clock())),
        ["prepare", seconds, seed] => {
            number(seconds).and_then(|s| Ok(compare_prepare(s, number(seed)?)))
        }
        ["names", seconds] => number(seconds).map(|s| compare_names(s, clock())),
        ["names", seconds, seed] => {
            number(seconds).and_then(|s| Ok(compare_names(s, number(seed)?)))
        }
        ["again", kind, seed] => again(kind, seed),
        [seconds] => number(seconds).and_then(|seconds| compare(seconds, clock())),
        [seconds, seed] => number(seconds).and_then(|s| compare(s, number(seed)?)),
        _ => Err(USAGE.into()),
    };
    match same {
        Ok(true) => ExitCode::SUCCESS,
        Ok(false) => ExitCode::from(1),
        Err(message) => {
            eprintln!("compare: {message}");
            ExitCode::from(2)
        }
    }
}

fn number(text: &str) -> Result<u64, String> {
    text.parse().map_err(|_| format!("'{text}' is no number\n{USAGE}"))
}

/// A seed that differs from run to run; it is printed.
fn clock() -> u64 {
    let since = SystemTime::now().duration_since(SystemTime::UNIX_EPOCH).unwrap_or_default();
    since.as_nanos() as u64 % 1_000_000_000
}

/// Whether the program is to be compared. That it is missing is an error, not a pass.
fn with_program() -> Result<bool, String> {
    if program::tamburish().as_os_str() == "none" {
        return Ok(false);
    }
    for path in [program::tamburish(), program::reference_program()] {
        if !path.is_file() {
            return Err(format!("no program at {}", path.display()));
        }
    }
    Ok(true)
}

fn compare(seconds: u64, seed: u64) -> Result<bool, String> {
    let started = Instant::now();
    let program = with_program()?;
    if !os::guards_hold() {
        return Err("the unreadable pages do not hold".into());
    }
    println!("compare: {seconds} seconds, seed {seed}");
    let figures = Figures::new();
    // Where a case fails, the random input still runs: it gives a small case to look at.
    let mut same = compare_cases(program) & compare_changes(figures);
    // At least half of the time is for random input.
    let all = Duration::from_secs(seconds);
    let left = all.saturating_sub(started.elapsed()).max(all / 2);
    let programs = if program { left / 4 } else { Duration::ZERO };
    let (finds, engines, evidence, gates) = (left / 4, left / 8, left / 16, left / 64);
    let (plain, apply, prepare) = (left / 16, left / 32, left / 32);
    let names = left / 32;
    let others = engines + evidence + gates + plain + apply + prepare + names;
    let calls = left.saturating_sub(programs + finds + others);
    same &= random_trials(Kind::Calls, seed, calls, figures);
    figures.print_calls();
    same &= random_trials(Kind::Finds, seed, finds, figures);
    figures.print_finds();
    figures.print_listings();
    figures.print_reserves();
    same &= random_trials(Kind::Engine, seed, engines, figures);
    figures.print_engine();
    same &= random_trials(Kind::Evidence, seed, evidence, figures);
    figures.print_sheets();
    same &= random_trials(Kind::Gates, seed, gates, figures);
    figures.print_gates();
    same &= random_trials(Kind::Plain, seed, plain, figures);
    figures.print_plain();
    same &= random_trials(Kind::Apply, seed, apply, figures);
    figures.print_applies();
    same &= random_trials(Kind::Prepare, seed, prepare, figures);
    figures.print_prepares();
    same &= figures.every_prepare_answer();
    same &= random_trials(Kind::Names, seed, names, figures);
    same &= figures.names_covered();
    if program {
        same &= random_trials(Kind::Program, seed, programs, figures);
        figures.print_program();
    } else {
        println!("program: not compared (TAMBURISH_BIN=none)");
    }
    let verdict = if same { "no difference" } else { "a difference, see above" };
    println!("compare: {verdict}, seed {seed}, {} seconds", started.elapsed().as_secs());
    Ok(same)
}

fn compare_engine(seconds: u64, seed: u64) -> bool {
    println!("compare engine: {seconds} seconds, seed {seed}");
    let figures = Figures::new();
    let same = random_trials(Kind::Engine, seed, Duration::from_secs(seconds), figures);
    figures.print_engine();
    same
}

fn compare_evidence(seconds: u64, seed: u64) -> bool {
    println!("compare evidence: {seconds} seconds, seed {seed}");
    let figures = Figures::new();
    let same = random_trials(Kind::Evidence, seed, Duration::from_secs(seconds), figures);
    figures.print_sheets();
    same
}

fn compare_gates(seconds: u64, seed: u64) -> bool {
    println!("compare gates: {seconds} seconds, seed {seed}");
    let figures = Figures::new();
    let same = random_trials(Kind::Gates, seed, Duration::from_secs(seconds), figures);
    figures.print_gates();
    same
}

fn compare_plain(seconds: u64, seed: u64) -> bool {
    println!("compare plain: {seconds} seconds, seed {seed}");
    let figures = Figures::new();
    let same = random_trials(Kind::Plain, seed, Duration::from_secs(seconds), figures);
    figures.print_plain();
    same
}

fn compare_apply(seconds: u64, seed: u64) -> bool {
    println!("compare apply: {seconds} seconds, seed {seed}");
    let figures = Figures::new();
    let same = random_trials(Kind::Apply, seed, Duration::from_secs(seconds), figures);
    figures.print_applies();
    same
}

fn compare_prepare(seconds: u64, seed: u64) -> bool {
    println!("compare prepare: {seconds} seconds, seed {seed}");
    let figures = Figures::new();
    let same = random_trials(Kind::Prepare, seed, Duration::from_secs(seconds), figures);
    figures.print_prepares();
    same & figures.every_prepare_answer()
}

fn compare_names(seconds: u64, seed: u64) -> bool {
    println!("compare names: {seconds} seconds, seed {seed}");
    let figures = Figures::new();
    let same = random_trials(Kind::Names, seed, Duration::from_secs(seconds), figures);
    same & figures.names_covered()
}

/// In a child process, as all that calls the library is.
fn compare_cases(with_program: bool) -> bool {
    let end = in_child(|| {
        end_after(LONGEST_SECONDS);
        let (count, failed) = cases::run_all(with_program);
        failed.iter().for_each(|(name, wrong)| println!("DIFFERENCE in {name}\n{wrong}"));
        println!("cases: {} passed, {} failed", count - failed.len(), failed.len());
        i32::from(!failed.is_empty())
    });
    if let End::Signal(signal) = end {
        println!("DIFFERENCE in cases: signal {signal}");
    }
    end == End::Status(0)
}

/// The child counts the changes that it is done with; where it ends otherwise than well, the next
/// one is the one to report.
fn compare_changes(figures: Figures) -> bool {
    let end = in_child(|| {
        for list in exhaustive::lists() {
            end_after(LONGEST_SECONDS);
            if list.difference(None).is_some() {
                return 1;
            }
            figures.add(Of::Changes, 1);
        }
        0
    });
    let done = figures.get(Of::Changes);
    println!("changes: {done} single-word changes checked");
    if end != End::Status(0) {
        let list = exhaustive::lists().nth(done as usize);
        list.into_iter().for_each(|list| Trial::Calls(list).report("a single-word change"));
    }
    end == End::Status(0)
}

/// Random trials for this long in a child process, of gates and names so many at least. If it ends otherwise than well, the trial whose
/// seed it noted last is the one to report.
fn random_trials(kind: Kind, seed: u64, time: Duration, figures: Figures) -> bool {
    let deadline = Instant::now() + time;
    let end = in_child(|| {
        let mut seeds = Random::new(seed);
        let mut left = match kind {
            Kind::Gates => LEAST_ROWS,
            Kind::Names => LEAST_NAME_ROWS,
            _ => 0,
        };
        while left > 0 || Instant::now() < deadline {
            left = left.saturating_sub(1);
            let seed = seeds.word();
            figures.set(Of::Seed, seed);
            end_after(LONGEST_SECONDS);
            if Trial::random(kind, seed).difference(Some(figures)).is_some() {
                return 1;
            }
        }
        0
    });
    if end != End::Status(0) {
        report(kind, figures.get(Of::Seed));
    }
    end == End::Status(0)
}

fn report(kind: Kind, seed: u64) {
    Trial::random(kind, seed).report(&format!("{} {seed}", kind.name()));
    println!("to see it again: compare again {} {seed}", kind.name());
}

fn again(kind: &str, seed: &str) -> Result<bool, String> {
    let kind = match kind {
        "calls" => Kind::Calls,
        "finds" => Kind::Finds,
        "engine" => Kind::Engine,
        "evidence" => Kind::Evidence,
        "gates" => Kind::Gates,
        "plain" => Kind::Plain,
        "apply" => Kind::Apply,
        "prepare" => Kind::Prepare,
        "names" => Kind::Names,
        "program" => Kind::Program,
        _ => return Err(USAGE.into()),
    };
    let seed = number(seed)?;
    let end = in_child(|| i32::from(Trial::random(kind, seed).difference(None).is_some()));
    match end {
        End::Status(0) => println!("no difference"),
        _ => report(kind, seed),
    }
    Ok(end == End::Status(0))
}
