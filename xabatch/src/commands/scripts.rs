//! `prepare` and `apply`: one command on a pool file in two halves, with a script between them.

use super::pools::words_of;
use crate::args::{Arguments, Known};
use crate::failure::{usage, Failure, NOT_DONE};
use crate::files::{self, of_file, MOST_POOL_BYTES};
use crate::pool_file::not_kept;
use std::ffi::OsStr;
use std::path::Path;
use xabatch::kind::FileKind;
use xabatch::locked::{self, LockedFile, Locking};
use xabatch::script::{self, counted};
use xabatch::text;
use xapool_host::{BadScriptBytes, Command, Error, Pool, Script};

pub const PREPARE_OPTIONS: [Known; 2] = [("-o", true), ("--command", true)];
pub const APPLY_OPTIONS: [Known; 1] = [("--no-wait", false)];

/// The pool is only read, and without the lock: a run puts a whole new file in its place, and the script of the old one is
/// then refused.
pub fn prepare(arguments: Arguments) -> Result<(), Failure> {
    let named = arguments.between(1, 2)?;
    let to = arguments.value("-o").ok_or_else(|| usage("-o SCRIPTFILE is missing"))?;
    if to == "-" {
        return Err(usage("a script is kept in a file: it must have a name"));
    }
    files::output_is_open()?;
    let record = record_of(&arguments, named.get(1).map(|file| &**file))?;
    let file = &named[0];
    let pool = Pool::from_words(words_of(file, &files::read_pool(file)?)?);
    let script =
        pool.prepare_record(&record).map_err(|error| not_prepared(file, &record, error))?;
    locked::create(Path::new(to), &script.to_bytes()).map_err(|error| not_kept(to, &error))?;
    let changes = counted(script.changes().len(), "changes", "change");
    files::write_lines(&[format!("prepared: {changes}")])
}

/// The bytes of the record, from `--command` as text, or from a file as a batch.
fn record_of(arguments: &Arguments, file: Option<&OsStr>) -> Result<Vec<u8>, Failure> {
    let Some(command) = arguments.value("--command") else {
        let file = file.map_or_else(files::standard_input, OsStr::to_owned);
        let bytes = files::read(&file)?;
        return match FileKind::guess(&bytes) {
            Some(kind) if kind != FileKind::Batch => {
                Err(of_file(&file, format!("no record of a command: it looks like {kind}")))
            }
            _ => Ok(bytes),
        };
    };
    if let Some(file) = file {
        let name = file.to_string_lossy();
        return Err(usage(format!("'{name}': the command is given by --command already")));
    }
    let command = command.to_string_lossy();
    let batch = text::batch_of(&command).map_err(|errors| match errors.first.first() {
        Some(error) => usage(format!("--command:{error}")),
        None => usage("--command: no command"),
    })?;
    match batch.len() {
        1 => Ok(batch.bytes().to_vec()),
        count => Err(usage(format!("--command: {count} commands: a script is of one"))),
    }
}

/// What the command itself was answered has the status of a command that was not done.
fn not_prepared(file: &OsStr, record: &[u8], error: Error) -> Failure {
    let name = Command::read(record).map_or_else(String::new, |command| format!("{command}: "));
    match error {
        Error::Answered(answer) => {
            Failure { status: NOT_DONE, message: format!("{name}{answer}; no script is written") }
        }
        Error::Refused(refusal) => of_file(file, format!("{refusal}; no script is written")),
    }
}

/// Ends what was begun, too: the words that are there already are written again.
pub fn apply(arguments: Arguments) -> Result<(), Failure> {
    let named = arguments.between(2, 2)?;
    let (file, from) = (&named[0], &named[1]);
    if file == "-" {
        return Err(usage("apply changes a pool file: it must have a name"));
    }
    files::output_is_open()?;
    let script = script_of(from, &files::read(from)?)?;
    let locking = if arguments.has("--no-wait") { Locking::Refuse } else { Locking::Wait };
    let failed = |error| of_file(file, error);
    let mut locked = LockedFile::open(Path::new(file), locking).map_err(failed)?;
    let bytes = files::no_longer(file, locked.read(MOST_POOL_BYTES).map_err(failed)?)?;
    let mut pool = Pool::from_words(words_of(file, &bytes)?);
    let as_it_was = |why: &dyn std::fmt::Display| of_file(file, format!("{why}; it is as it was"));
    let there = script.written_in(&pool).map_err(|other| as_it_was(&other))?;
    pool.apply_script(&script).map_err(|error| as_it_was(&error))?;
    // What the script was prepared from was a pool, and so is this; another one would be told here.
    pool.check().map_err(|refusal| as_it_was(&refusal))?;
    let after = pool.to_bytes();
    let kept = if after == bytes { locked.flush() } else { locked.replace(&after) };
    kept.map_err(|error| not_kept(file, &error))?;
    let words = counted(script.changes().len() - there, "is written", "are written");
    let line = match there {
        0 => format!("applied: {words}"),
        _ => format!("applied: {words}, {there} had been"),
    };
    files::write_lines(&[line])
}

/// The script of a file's bytes.
fn script_of(file: &OsStr, bytes: &[u8]) -> Result<Script, Failure> {
    Script::from_bytes(bytes).map_err(|bad| match (bad, FileKind::guess(bytes)) {
        (BadScriptBytes::Head, Some(kind)) => {
            of_file(file, format!("no script: it looks like {kind}"))
        }
        _ => of_file(file, bad),
    })
}

/// A script as text or JSON, for `decode`.
pub fn write_script(file: &OsStr, bytes: &[u8], json: bool) -> Result<(), Failure> {
    let script = script_of(file, bytes)?;
    files::write_lines(&match json {
        true => vec![script::json_of(&script)],
        false => script::lines_of(&script),
    })
}
