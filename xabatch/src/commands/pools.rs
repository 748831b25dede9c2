//! `show`, `list` and `find`: what a pool file holds.

use crate::args::Arguments;
use crate::failure::{malformed, usage, Failure};
use crate::files::{self, of_file};
use crate::kept::plain_of;
use std::ffi::{OsStr, OsString};
use std::fmt::Display;
use std::ops::RangeInclusive;
use xabatch::kind::{is_pool, FileKind};
use xabatch::{decode, draw, inspect, json, text};
use xapool_host::{Entry, Listing, Pool, FIND_ANY, PLAIN_FILE};

pub fn show(arguments: Arguments) -> Result<(), Failure> {
    let file = &arguments.between(1, 1)?[0];
    let view = view_of(&arguments)?;
    let words = read_words(file)?;
    let report = inspect::inspect(&words);
    let lines = match arguments.has("--json") {
        true => vec![draw::json_of(&report, &view)],
        false => draw::lines_of(&report, &view),
    };
    files::write_lines(&lines)?;
    match (Pool::from_words(words).check(), report.findings.is_empty()) {
        (Ok(()), true) => Ok(()),
        (Err(_), false) => Err(malformed("")),
        // Cannot be; the library's check is the one that is proved.
        (checked, _) => Err(malformed(format!("the library's check differs: {checked:?}"))),
    }
}

fn view_of(arguments: &Arguments) -> Result<draw::View, Failure> {
    let part = match (arguments.has("--summary"), arguments.has("--findings")) {
        (true, true) => return Err(usage("--summary or --findings, not both")),
        (true, false) => draw::Part::Summary,
        (false, true) => draw::Part::Findings,
        (false, false) => draw::Part::Tree,
    };
    let range = range_of("--range ", arguments.value("--range"))?;
    if range != (0, u64::MAX) && part != draw::Part::Tree {
        return Err(usage("--range is for the tree"));
    }
    if arguments.has("--json") && part != draw::Part::Summary {
        return Err(usage("--json is for --summary"));
    }
    Ok(draw::View { part, range, all: arguments.has("--all") })
}

/// All indices if no range is named; `before` stands before it in a message.
fn range_of(before: &str, range: Option<&OsStr>) -> Result<(u64, u64), Failure> {
    let Some(range) = range.map(OsStr::to_string_lossy) else {
        return Ok((0, u64::MAX));
    };
    text::range_of(&range).map_err(|error| usage(format!("{before}{range}: {error}")))
}

/// As `show`, it reads without the lock: a run puts a whole new file in the place of the old one.
pub fn list(arguments: Arguments) -> Result<(), Failure> {
    let named = arguments.between(1, 2)?;
    if arguments.has("--bytes") && arguments.has("--json") {
        return Err(usage("--bytes or --json, not both"));
    }
    let (first, last) = range_of("", named.get(1).map(OsString::as_os_str))?;
    let list = listing_of(&named[0], first, last)?;
    if arguments.has("--bytes") {
        return files::write(list.bytes());
    }
    if arguments.has("--json") {
        let entries = json::array(list.map(|entry| format!("\n{}", decode::entry_json(entry))));
        let object = json::Object::new().with("first", first).with("last", last);
        return files::write_lines(&[object.with("entries", entries).end()]);
    }
    files::write_lines(&list.map(|entry| entry.to_string()).collect::<Vec<_>>())
}

/// The list of a pool is the library's own. That of a plain list is read from its slices, which the library checks.
fn listing_of(file: &OsStr, first: u64, last: u64) -> Result<Listing, Failure> {
    let bytes = files::read_pool(file)?;
    if !bytes.starts_with(&PLAIN_FILE) {
        let pool = Pool::from_words(words_of(file, &bytes)?);
        return pool.list(first..=last).map_err(|refusal| of_file(file, refusal));
    }
    let entries = plain_of(file, &bytes)?.entries().map_err(|refusal| of_file(file, refusal))?;
    let meets = |entry: &Entry| entry.base <= last && first <= entry.last();
    let bytes = entries.into_iter().filter(meets).flat_map(Entry::listed).collect();
    Listing::read(bytes).map_err(|bad| of_file(file, bad))
}

/// The walk of `Pool::find`, over the pauses of any budget: it misses no entry (`no_index_missed` and
/// `budgets_agree` of crates/walks). The file is read once, so nothing changes in between.
pub fn find(arguments: Arguments) -> Result<(), Failure> {
    let named = arguments.between(1, 2)?;
    let (first, last) = range_of("", named.get(1).map(OsString::as_os_str))?;
    let filter = number_of(&arguments, "--mark", 0..=2, FIND_ANY)?;
    let budget = number_of(&arguments, "--budget", 1..=u16::MAX, u16::MAX)?;
    let file = &named[0];
    let mut pool = Pool::from_words(read_words(file)?);
    let most = if arguments.has("--all") { usize::MAX } else { 1 };
    let found = pool.find(first..=last, filter).with_budget(budget).take(most);
    let found: Vec<Entry> =
        found.collect::<Result<_, _>>().map_err(|error| of_file(file, error))?;
    if arguments.has("--json") {
        let entries = found.iter().map(|entry| format!("\n{}", decode::entry_json(*entry)));
        let object = json::Object::new().with("first", first).with("last", last);
        return files::write_lines(&[object.with("entries", json::array(entries)).end()]);
    }
    files::write_lines(&found.iter().map(Entry::to_string).collect::<Vec<_>>())
}

/// The number that an option names, of these; another if it is not given.
fn number_of<T: TryFrom<u64> + PartialOrd + Display>(
    arguments: &Arguments,
    name: &str,
    of: RangeInclusive<T>,
    else_is: T,
) -> Result<T, Failure> {
    let Some(value) = arguments.value(name).map(OsStr::to_string_lossy) else {
        return Ok(else_is);
    };
    let number = text::index_of(&value).ok().and_then(|number| T::try_from(number).ok());
    let refused =
        || usage(format!("{name} {value}: not a number from {} to {}", of.start(), of.end()));
    number.filter(|number| of.contains(number)).ok_or_else(refused)
}

/// The words of a pool file; a file of another kind is named.
fn read_words(file: &OsStr) -> Result<Vec<u64>, Failure> {
    words_of(file, &files::read_pool(file)?)
}

pub(super) fn words_of(file: &OsStr, bytes: &[u8]) -> Result<Vec<u64>, Failure> {
    let kind = FileKind::guess(bytes).filter(|kind| *kind != FileKind::Pool);
    if let Some(kind) = kind.filter(|_| !is_pool(bytes)) {
        return Err(of_file(file, format!("no pool file: it looks like {kind}")));
    }
    files::words_of(file, bytes)
}
