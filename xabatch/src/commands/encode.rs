//! `encode`: text to batches.

use super::only_file;
use crate::args::Arguments;
use crate::failure::{usage, Failure};
use crate::files::{self, of_file};
use std::ffi::{OsStr, OsString};
use std::path::Path;
use xabatch::kind::FileKind;
use xabatch::locked;
use xabatch::progress::Progress;
use xabatch::text::{self, SyntaxErrors};
use xapool_host::{Batches, Command};

pub fn encode(arguments: Arguments) -> Result<(), Failure> {
    let file = only_file(&arguments)?;
    if arguments.has("--long") && arguments.has("--split") {
        return Err(usage("--long or --split, not both"));
    }
    let bytes = files::read(&file)?;
    if let Some(kind) = FileKind::guess(&bytes).filter(|kind| *kind != FileKind::Text) {
        return Err(usage(format!("{}: no text: it looks like {kind}", files::name(&file))));
    }
    // A byte that is no text becomes a character that no command has, at its right column.
    let input = String::from_utf8_lossy(&bytes);
    let syntax = |errors| told(&file, errors);
    if arguments.has("--long") {
        return files::write(&records(&watched(&input, text::commands_of).map_err(syntax)?));
    }
    if let Some(prefix) = arguments.value("--split") {
        let commands = watched(&input, text::commands_of).map_err(syntax)?;
        return write_split(prefix, &commands.into_iter().collect());
    }
    files::write(watched(&input, text::watched_batch_of).map_err(syntax)?.bytes())
}

/// Reads a text with a bar, which is gone before anything is said.
fn watched<T>(
    input: &str,
    read: impl FnOnce(&str, &mut dyn FnMut(usize)) -> Result<T, SyntaxErrors>,
) -> Result<T, SyntaxErrors> {
    let mut progress = Progress::as_text(Some(input.len() as u64));
    read(input, &mut |bytes| progress.add(bytes))
}

/// Tells all errors but the last, which is that of the command.
fn told(file: &OsStr, errors: SyntaxErrors) -> Failure {
    let mut lines: Vec<String> =
        errors.first.iter().map(|error| format!("{}:{error}", files::name(file))).collect();
    match errors.more {
        0 => {}
        1 => lines.push("and 1 more error".into()),
        more => lines.push(format!("and {more} more errors")),
    }
    let last = lines.pop().unwrap_or_default();
    lines.iter().for_each(|line| files::complain(line));
    usage(last)
}

fn records(commands: &[Command]) -> Vec<u8> {
    let mut bytes = Vec::new();
    commands.iter().for_each(|command| command.write(&mut bytes));
    bytes
}

/// Each batch to a file of its own, all or none; then their names.
fn write_split(prefix: &OsStr, batches: &Batches) -> Result<(), Failure> {
    files::output_is_open()?;
    let mut names: Vec<OsString> = Vec::new();
    for (number, batch) in batches.iter().enumerate() {
        let mut name = prefix.to_owned();
        name.push((number + 1).to_string());
        if let Err(error) = locked::create(Path::new(&name), batch.bytes()) {
            for written in &names {
                // What is the matter is told below.
                let _ = std::fs::remove_file(written);
            }
            return Err(of_file(&name, error));
        }
        names.push(name);
    }
    let lines: Vec<String> = names.iter().map(|name| name.to_string_lossy().into()).collect();
    files::write_lines(&lines)
}
