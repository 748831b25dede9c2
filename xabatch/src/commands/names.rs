//! `names`: pools of names, made, checked, drawn, and looked up in.

use crate::args::Arguments;
use crate::failure::{malformed, usage, Failure, NOT_DONE};
use crate::files::{self, of_file};
use crate::pool_file;
use std::ffi::{OsStr, OsString};
use xabatch::decode::word_json;
use xabatch::json::{self, Object};
use xabatch::kind::{self, FileKind};
use xabatch::{draw_names, key, names};
use xapool_host::{block_count, names_words, Key, NameError, Names, Word, MOST_BLOCKS};

pub fn act(words: &[OsString]) -> Result<(), Failure> {
    let Some((action, words)) = words.split_first() else {
        return Err(usage("names wants one of new, check, show and lookup"));
    };
    match &*action.to_string_lossy() {
        "new" => create(Arguments::of(words, &[])?),
        "check" => check(Arguments::of(words, &[])?),
        "show" => show(Arguments::of(words, &[("--json", false)])?),
        "lookup" => lookup(Arguments::of(words, &[("--json", false)])?),
        other => Err(usage(format!("names '{other}': one of new, check, show and lookup"))),
    }
}

fn create(arguments: Arguments) -> Result<(), Failure> {
    let words = arguments.between(1, 2)?;
    let size = words[0].to_string_lossy();
    let blocks = size.parse().map_err(|_| usage(format!("'{size}' is no number of blocks")))?;
    if names_words(blocks).is_none() {
        return Err(usage(format!("{size} blocks: a pool of names has 1 to {MOST_BLOCKS}")));
    }
    let names = Names::new(blocks).map_err(|refusal| malformed(refusal.to_string()))?;
    pool_file::write_new(words.get(1), &names.to_bytes())
}

fn check(arguments: Arguments) -> Result<(), Failure> {
    let file = &arguments.between(1, 1)?[0];
    read_names(file)?.check().map_err(|refusal| of_file(file, refusal))?;
    files::write_lines(&["well-formed".into()])
}

fn show(arguments: Arguments) -> Result<(), Failure> {
    let file = &arguments.between(1, 1)?[0];
    let names = read_names(file)?;
    let report = names::inspect(&names);
    let lines = match arguments.has("--json") {
        true => vec![draw_names::json_of(&report)],
        false => draw_names::lines_of(&report),
    };
    files::write_lines(&lines)?;
    match (names.check(), report.findings.is_empty()) {
        (Ok(()), true) => Ok(()),
        (Err(_), false) => Err(malformed("")),
        // Cannot be; the library's check is the one that is proved.
        (checked, _) => Err(malformed(format!("the library's check differs: {checked:?}"))),
    }
}

/// Status 0 is for keys that are all there: one that is not is told, and is no evidence of anything.
fn lookup(arguments: Arguments) -> Result<(), Failure> {
    let [file, named @ ..] = arguments.between(2, usize::MAX)? else {
        return Err(usage("a pool of names and keys are named"));
    };
    let keys = named.iter().map(|word| key_of(word)).collect::<Result<Vec<Key>, Failure>>()?;
    files::output_is_open()?;
    let names = read_names(file)?;
    let mut found = Vec::new();
    for key in keys {
        match names.lookup(key.bytes()) {
            Ok(object) => found.push((key, Some(object))),
            Err(NameError::Absent { .. }) => found.push((key, None)),
            Err(refused) => return Err(of_file(file, refused)),
        }
    }
    let absent: Vec<&Key> = found.iter().filter(|one| one.1.is_none()).map(|one| &one.0).collect();
    for key in &absent {
        files::complain(&format!("{}: no such key: {}", files::name(file), key::shown(key)));
    }
    files::write_lines(&match arguments.has("--json") {
        true => vec![found_json(&found, absent.len())],
        false => found.iter().filter_map(line).collect(),
    })?;
    match absent.is_empty() {
        true => Ok(()),
        false => Err(Failure { status: NOT_DONE, message: String::new() }),
    }
}

fn key_of(word: &OsStr) -> Result<Key, Failure> {
    let refused = |error| usage(format!("key '{}': {error}", word.to_string_lossy()));
    key::of(word).map_err(refused)
}

fn line((key, object): &(Key, Option<Word>)) -> Option<String> {
    Some(format!("{}: {}", key::shown(key), (*object)?))
}

fn found_json(found: &[(Key, Option<Word>)], absent: usize) -> String {
    let one = |(key, object): &(Key, Option<Word>)| {
        let json = Object::new().text("key", &key::shown(key)).with("found", object.is_some());
        object.map_or(json.clone(), |word| word_json(json, word)).end()
    };
    Object::new().with("keys", json::array(found.iter().map(one))).with("absent", absent).end()
}

/// What a file holds, unchecked; one of another kind is named.
fn read_names(file: &OsStr) -> Result<Names<'static>, Failure> {
    let bytes = files::read_pool(file)?;
    match FileKind::guess(&bytes) {
        // By its length it may be a pool of names whose first word is damaged: the check tells.
        Some(FileKind::Pool)
            if !kind::is_pool(&bytes) && block_count(bytes.len() / 8).is_some() => {}
        None | Some(FileKind::Names) => {}
        Some(kind) => return Err(of_file(file, format!("no pool of names: it looks like {kind}"))),
    }
    files::words_of(file, &bytes).map(Names::from_words)
}
