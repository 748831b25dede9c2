//! The program: one batch from standard input on a fresh pool of 40 nodes; also `lists`, `evidence`, `gates`, `apply`,
//! `prepare`, `names` and `name-lists`.

use reference::answers::{BAD_BATCH, DONE};
use reference::batch::REPLY_BYTES;
use reference::calls::{init, run, Outcome};
use reference::evidence::{look_up, Sheet};
use reference::gates::verdict;
use reference::lists;
use reference::names::session;
use reference::pool::pool_length;
use reference::scripts::{apply, prepare};
use std::io::{self, BufWriter, Read, Write};
use std::process::ExitCode;

const NODES: usize = 40;

/// The program takes no longer batches, and says so itself (request P8).
const MOST_INPUT_BYTES: usize = 8192;

/// The shortest record has 11 bytes, so a batch has no more commands than this.
const MOST_COMMANDS: usize = MOST_INPUT_BYTES / 11;

fn main() -> ExitCode {
    let arguments: Vec<String> = std::env::args().skip(1).collect();
    let written = match arguments.as_slice() {
        [] => run_program(),
        [name, seed, count, most] if name == "lists" => print_lists([seed, count, most]),
        [name, seed, count, most] if name == "name-lists" => print_names([seed, count, most]),
        [name] if name == "evidence" => look_ups(),
        [name] if name == "gates" => gates(),
        [name] if name == "apply" => scripts(),
        [name] if name == "prepare" => preparings(),
        [name] if name == "names" => names(),
        _ => Err(io::Error::other(
            "usage: reference [(lists | name-lists) SEED COUNT MAXLEN | evidence | gates | apply | prepare | names]",
        )),
    };
    match written {
        Ok(()) => ExitCode::SUCCESS,
        Err(error) => {
            eprintln!("reference: {error}");
            ExitCode::FAILURE
        }
    }
}

/// Standard input to its end. Only one byte more than the program takes is kept: with it the batch is
/// too long, whatever follows.
fn read_batch() -> io::Result<Vec<u8>> {
    let mut batch = Vec::new();
    io::stdin().take(MOST_INPUT_BYTES as u64 + 1).read_to_end(&mut batch)?;
    io::copy(&mut io::stdin(), &mut io::sink())?;
    Ok(batch)
}

fn run_program() -> io::Result<()> {
    let batch = read_batch()?;
    if batch.len() > MOST_INPUT_BYTES {
        let outcome = Outcome { answer: BAD_BATCH.into(), number: MOST_INPUT_BYTES as u64 };
        return io::stdout().write_all(&refusal(outcome));
    }
    let mut pool = vec![0; pool_length(NODES)];
    init(&mut pool);
    let mut reply = vec![0; REPLY_BYTES * MOST_COMMANDS];
    let outcome = run(&mut pool, &batch, &mut reply);
    if outcome.answer == u64::from(DONE) {
        reply.truncate(REPLY_BYTES * outcome.number as usize);
    } else {
        reply = refusal(outcome);
    }
    io::stdout().write_all(&reply)
}

/// The record of a refused call: tag 255 and length 3, then the answer and two bytes of place.
fn refusal(outcome: Outcome) -> Vec<u8> {
    let place = (outcome.number as u16).to_be_bytes();
    vec![255, 0, 3, outcome.answer as u8, place[0], place[1]]
}

/// For scripts/planted-faults, small look-ups in a row: a byte each of index and of the sheets' lengths,
/// the base sheet, the supplement. Of each is written: answer, sheet, and two bytes each of place and
/// length.
fn look_ups() -> io::Result<()> {
    let (mut all, mut out) = (Vec::new(), Vec::new());
    io::stdin().read_to_end(&mut all)?;
    let mut rest = &all[..];
    while let [index, base, supplement, sheets @ ..] = rest {
        let cut = || io::Error::other("a look-up is cut");
        let (base, after) = sheets.split_at_checked((*base).into()).ok_or_else(cut)?;
        let (supplement, after) = after.split_at_checked((*supplement).into()).ok_or_else(cut)?;
        let found = look_up(base, supplement, (*index).into());
        let (sheet, part) = found.part.unwrap_or((Sheet::Base, 0..0));
        out.extend([found.answer, u8::from(sheet == Sheet::Supplement)]);
        out.extend([part.start as u16, part.len() as u16].map(u16::to_be_bytes).as_flattened());
        rest = after;
    }
    io::stdout().write_all(&out)
}

/// For scripts/planted-faults, gates in a row: a byte of kind, eight bytes each of the limits' bits, four each of
/// part and total. Of each is written: answer, and 1 for a pass.
fn gates() -> io::Result<()> {
    let (mut all, mut out) = (Vec::new(), Vec::new());
    io::stdin().read_to_end(&mut all)?;
    for ask in all.chunks_exact(25) {
        let number = |bytes: &[u8]| bytes.iter().fold(0, |n, byte| n * 256 + u64::from(*byte));
        let [a, b] = [&ask[1..9], &ask[9..17]].map(|bits| f64::from_bits(number(bits)));
        let [part, total] = [&ask[17..21], &ask[21..25]].map(|count| number(count) as u32);
        let given = verdict(ask[0].into(), a, b, part, total);
        out.extend([given.answer, given.pass.into()]);
    }
    io::stdout().write_all(&out)
}

/// For scripts/planted-faults, scripts in a row: a byte each of how many words the pool and the script have, and one
/// for each word of the script. The words of the pool are their places. Of each is written: answer, number, the words.
fn scripts() -> io::Result<()> {
    let (mut all, mut out) = (Vec::new(), Vec::new());
    io::stdin().read_to_end(&mut all)?;
    let mut rest = &all[..];
    while let [words, size, after @ ..] = rest {
        let cut = || io::Error::other("a script is cut");
        let (script, after) = after.split_at_checked((*size).into()).ok_or_else(cut)?;
        let script: Vec<u64> = script.iter().map(|word| u64::from(*word)).collect();
        let mut pool: Vec<u64> = (0..u64::from(*words)).collect();
        let Outcome { answer, number } = apply(&mut pool, &script);
        out.extend([answer as u8, number as u8]);
        out.extend(pool.iter().map(|word| *word as u8));
        rest = after;
    }
    io::stdout().write_all(&out)
}

/// For scripts/planted-faults, records to prepare in a row, on one pool of 12 nodes: a byte each of how many words the slice
/// and bytes the record have, and the record. The words of the slice are their places. What is done is applied. Of each is
/// written: answer, two bytes of the number, and of each word of the slice the two lowest.
fn preparings() -> io::Result<()> {
    let (mut all, mut out) = (Vec::new(), Vec::new());
    io::stdin().read_to_end(&mut all)?;
    let mut pool = vec![0; pool_length(12)];
    init(&mut pool);
    let mut rest = &all[..];
    while let [room, size, after @ ..] = rest {
        let cut = || io::Error::other("a record is cut");
        let (record, after) = after.split_at_checked((*size).into()).ok_or_else(cut)?;
        let mut slice: Vec<u64> = (0..u64::from(*room)).collect();
        let Outcome { answer, number } = prepare(&pool, record, &mut slice);
        out.push(answer as u8);
        out.extend((number as u16).to_be_bytes());
        out.extend(slice.iter().flat_map(|word| (*word as u16).to_be_bytes()));
        if answer == u64::from(DONE) {
            apply(&mut pool, &slice[..number as usize]);
        }
        rest = after;
    }
    io::stdout().write_all(&out)
}

/// Calls on pools of names, by lines of text (names/session.rs).
fn names() -> io::Result<()> {
    let mut out = BufWriter::new(io::stdout());
    session::run(io::stdin().lock(), &mut out)?;
    out.flush()
}

fn print_lists(arguments: [&String; 3]) -> io::Result<()> {
    let [seed, count, most] = numbers(arguments)?;
    let mut out = BufWriter::new(io::stdout());
    lists::print(&mut out, seed, count, most)?;
    out.flush()
}

fn print_names(arguments: [&String; 3]) -> io::Result<()> {
    let [seed, count, most] = numbers(arguments)?;
    let mut out = BufWriter::new(io::stdout());
    reference::names::lists::print(&mut out, seed, count, most)?;
    out.flush()
}

fn numbers(arguments: [&String; 3]) -> io::Result<[u64; 3]> {
    let numbers: Result<Vec<u64>, _> = arguments.iter().map(|text| text.parse()).collect();
    let numbers = numbers.map_err(io::Error::other)?;
    Ok([numbers[0], numbers[1], numbers[2]])
}
