//! The program tamburish on a batch by standard input, against reference's program.

use crate::batches::{cuts, hex, parts, random_batch, show};
use crate::figures::{Figures, Of};
use crate::os::unread;
use reference::awkward::Commands as Source;
use reference::random::Random;
use std::io::{Read, Write};
use std::path::PathBuf;
use std::process::{Child, ChildStdin, Command as Process, ExitStatus, Stdio};
use std::time::{Duration, Instant};
use std::{env, io, thread};
use xapool_host::{MOST_BATCH_BYTES, PROGRAM_BATCH_BYTES};

/// A program takes milliseconds; one that takes so long does not end.
const LONGEST: Duration = Duration::from_secs(20);

/// A batch, and the sizes of the pieces in which it comes through the pipe (none: all at once).
#[derive(Clone, Debug, PartialEq, Eq)]
pub struct Input {
    pub batch: Vec<u8>,
    pub pieces: Vec<usize>,
}

pub fn tamburish() -> PathBuf {
    program("TAMBURISH_BIN", "../target/bin/tamburish")
}

pub fn reference_program() -> PathBuf {
    program("REFERENCE_BIN", "../build/release/reference")
}

fn program(variable: &str, default: &str) -> PathBuf {
    let here = PathBuf::from(env!("CARGO_MANIFEST_DIR"));
    env::var_os(variable).map_or(here.join(default), PathBuf::from)
}

/// Until the program has taken what is in the pipe, so that the next piece is another read. One
/// that does not read is not waited for long.
fn wait_until_read(pipe: &ChildStdin) {
    let started = Instant::now();
    while unread(pipe) > 0 && started.elapsed() < Duration::from_secs(1) {
        thread::sleep(Duration::from_micros(100));
    }
}

/// All replies to a batch fit the pipe, so a program need not be read from before it ends; one
/// that does not end is killed.
fn wait_for_end(process: &mut Child) -> io::Result<ExitStatus> {
    let started = Instant::now();
    while started.elapsed() < LONGEST {
        if let Some(status) = process.try_wait()? {
            return Ok(status);
        }
        thread::sleep(Duration::from_micros(100));
    }
    process.kill()?;
    process.wait()?;
    Err(io::Error::other(format!("no end in {} seconds", LONGEST.as_secs())))
}

/// Mostly the most that the program takes; at times the most that a pool's run takes, which is too
/// long for the program.
fn longest(random: &mut Random) -> usize {
    if random.one_in(4) {
        MOST_BATCH_BYTES
    } else {
        PROGRAM_BATCH_BYTES
    }
}

impl Input {
    pub fn random(seed: u64) -> Input {
        let mut random = Random::new(seed);
        let mut source = Source::new(Random::new(random.word()));
        let most = longest(&mut random);
        let batch = random_batch(&mut random, &mut source, most);
        let most = [2, 24, 600, 5000][random.below(4) as usize];
        let count = if random.one_in(2) { 0 } else { 1 + random.below(5) };
        let pieces = (0..count).map(|_| 1 + random.below(most) as usize).collect();
        Input { batch, pieces }
    }

    /// What this program writes. A program that ends without reading all is no error here.
    fn output(&self, program: &PathBuf) -> io::Result<Vec<u8>> {
        let mut process =
            Process::new(program).stdin(Stdio::piped()).stdout(Stdio::piped()).spawn()?;
        if let Some(mut pipe) = process.stdin.take() {
            let mut rest = &self.batch[..];
            for size in &self.pieces {
                let (piece, after) = rest.split_at(rest.len().min(*size));
                let _ = pipe.write_all(piece);
                rest = after;
                wait_until_read(&pipe);
            }
            let _ = pipe.write_all(rest);
        }
        let status = wait_for_end(&mut process)?;
        let mut output = Vec::new();
        process.stdout.take().map(|mut pipe| pipe.read_to_end(&mut output)).transpose()?;
        match status.code() {
            Some(_) => Ok(output),
            None => Err(io::Error::other(format!("{}: {status}", program.display()))),
        }
    }

    pub fn difference(&self, figures: Option<Figures>) -> Option<String> {
        let expected = match self.output(&reference_program()) {
            Ok(expected) => expected,
            Err(error) => return Some(format!("reference's program: {error}")),
        };
        let found = match self.output(&tamburish()) {
            Ok(found) => found,
            Err(error) => return Some(format!("the program: {error}")),
        };
        let all = expected.len().max(found.len());
        if let Some(place) = (0..all).find(|at| expected.get(*at) != found.get(*at)) {
            let (a, b) = (hex(&expected), hex(&found));
            let programs = format!("    reference's program {a}\n    the program         {b}");
            return Some(format!("byte {place} differs:\n{programs}"));
        }
        if let Some(figures) = figures {
            figures.add(Of::ProgramBatches, 1);
            figures.add(Of::ProgramBytes, found.len());
        }
        None
    }

    pub fn smaller(&self) -> impl Iterator<Item = Input> + '_ {
        let whole = Input { batch: self.batch.clone(), pieces: Vec::new() };
        let parts = parts(&self.batch);
        let fewer = cuts(parts.len()).map(move |(from, to)| {
            let batch = [&parts[..from], &parts[to..]].concat().concat();
            Input { batch, pieces: self.pieces.clone() }
        });
        (!self.pieces.is_empty()).then_some(whole).into_iter().chain(fewer)
    }

    pub fn show(&self) -> String {
        let pieces = format!("standard input in pieces of {:?} bytes and the rest", self.pieces);
        format!("{pieces}\n{}", show(&self.batch))
    }
}
