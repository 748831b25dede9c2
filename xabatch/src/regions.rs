//! Digests of files, and the comparison of two, in pieces, so that they may be larger than memory.

use crate::args::Arguments;
use crate::failure::{malformed, usage, Failure};
use crate::files::{self, of_file};
use crate::source::{Source, PIECE};
use std::ffi::{OsStr, OsString};
use xabatch::escape;
use xabatch::json::{self, Object};
use xabatch::kind::{FileKind, Sniffer};
use xabatch::progress::Progress;
use xapool_host::{Crc32c, Pieces, Verdict};

/// A line for each file. One that cannot be read is told, and the others are gone on with.
pub fn crc(arguments: Arguments) -> Result<(), Failure> {
    let mut named = arguments.files;
    if named.is_empty() {
        named.push("-".into());
    }
    files::output_is_open()?;
    let mut failed = false;
    for file in &named {
        match digest_of(file) {
            Ok((digest, bytes)) => {
                let name = escape::plain(&file.to_string_lossy());
                if bytes == 0 {
                    files::complain(&format!(
                        "{name}: it is empty: {digest} is the digest of nothing"
                    ));
                }
                files::write_lines(&[format!("{digest}  {name}")])?;
            }
            Err(failure) => {
                failed = true;
                files::complain(&failure.message);
            }
        }
    }
    if failed {
        return Err(malformed(""));
    }
    Ok(())
}

fn digest_of(file: &OsStr) -> Result<(Crc32c, u64), Failure> {
    let failed = |error| of_file(file, error);
    let mut source = Source::open_still(file).map_err(failed)?;
    let mut progress = Progress::of(source.length());
    let (mut digest, mut bytes, mut piece) = (Crc32c::new(), 0, vec![0; PIECE]);
    loop {
        let filled = source.fill(&mut piece).map_err(failed)?;
        if filled == 0 {
            break;
        }
        digest.update(&piece[..filled]);
        bytes += filled as u64;
        progress.add(filled);
    }
    source.is_unchanged().map_err(failed)?;
    Ok((digest, bytes))
}

/// Status 0 is for a match alone: whoever erases by it must not take a fault for one.
pub fn compare(arguments: Arguments) -> Result<(), Failure> {
    let [old, new] = arguments.between(2, 2)? else {
        return Err(usage("two files are compared"));
    };
    if old == "-" && new == "-" {
        return Err(usage("the old and the new file cannot both be standard input"));
    }
    let fault = |failure| Failure { status: 2, ..failure };
    files::output_is_open().map_err(fault)?;
    let found = compare_files(old, new, arguments.has("--bytes")).map_err(fault)?;
    let lines = if arguments.has("--json") { vec![found.json()] } else { found.lines() };
    files::write_lines(&lines).map_err(fault)?;
    match found.verdict {
        Verdict::Matched => Ok(()),
        Verdict::Different => Err(malformed("")),
        Verdict::NothingToCompare => Err(fault(malformed(""))),
    }
}

/// What a comparison came to.
struct Found {
    verdict: Verdict,
    /// Why there is nothing to compare.
    why: Option<String>,
    /// None if nothing was read.
    pieces: Option<Pieces>,
}

/// Both files, as far as they were read.
struct Sides<'a> {
    names: [&'a OsString; 2],
    sources: [Source; 2],
    sniffers: [Sniffer; 2],
    pieces: Pieces,
}

fn compare_files(old: &OsString, new: &OsString, as_bytes: bool) -> Result<Found, Failure> {
    let open = |file: &OsString| Source::open_still(file).map_err(|error| of_file(file, error));
    let sources = [open(old)?, open(new)?];
    if sources[0].is_same(&sources[1]) {
        let (verdict, why) = (Verdict::NothingToCompare, Some("one file".into()));
        return Ok(Found { verdict, why, pieces: None });
    }
    let sniffers = [Sniffer::default(), Sniffer::default()];
    let mut sides = Sides { names: [old, new], sources, sniffers, pieces: Pieces::new() };
    sides.read()?;
    for (source, file) in sides.sources.iter().zip(sides.names) {
        source.is_unchanged().map_err(|error| of_file(file, error))?;
    }
    sides.tell_holes();
    Ok(found(sides.pieces, sides.sniffers.map(Sniffer::kind), as_bytes))
}

impl Sides<'_> {
    fn read(&mut self) -> Result<(), Failure> {
        let lengths = self.sources.each_ref().map(Source::length);
        let mut progress = Progress::of(lengths[0].zip(lengths[1]).map(|(old, new)| old + new));
        let mut pieces = [vec![0; PIECE], vec![0; PIECE]];
        loop {
            let mut filled = [0, 0];
            for side in 0..2 {
                let failed = |error| of_file(self.names[side], error);
                filled[side] = self.sources[side].fill(&mut pieces[side]).map_err(failed)?;
                self.sniffers[side].take(&pieces[side][..filled[side]]);
            }
            if filled == [0, 0] {
                return Ok(());
            }
            self.pieces.take(&pieces[0][..filled[0]], &pieces[1][..filled[1]]);
            progress.add(filled[0] + filled[1]);
        }
    }

    /// Zeros that nobody wrote match other zeros, by the rule; whoever acts by it is to know.
    fn tell_holes(&self) {
        if self.pieces.comparison().verdict != Verdict::Matched {
            return;
        }
        for (source, name) in self.sources.iter().zip(self.names) {
            if source.is_holes_alone() {
                let what = "no block of data, but holes alone, which read as zeros";
                files::complain(&format!("{}: {what}", files::name(name)));
            }
        }
    }
}

/// The verdict over the bytes, unless a file is no data but an index: a match of pools or of lists is no
/// evidence of what they are about.
fn found(pieces: Pieces, kinds: [Option<FileKind>; 2], as_bytes: bool) -> Found {
    let verdict = pieces.comparison().verdict;
    let empty = match pieces.bytes() {
        (0, 0) => Some("both are empty".into()),
        (0, _) => Some("old is empty".into()),
        (_, 0) => Some("new is empty".into()),
        _ => None,
    };
    let index = index_text(kinds).filter(|_| !as_bytes);
    match (empty, index) {
        (None, None) => Found { verdict, why: None, pieces: Some(pieces) },
        (empty, index) => {
            let why = empty.or(index);
            Found { verdict: Verdict::NothingToCompare, why, pieces: Some(pieces) }
        }
    }
}

fn index_text(kinds: [Option<FileKind>; 2]) -> Option<String> {
    let name = |kind: Option<FileKind>| {
        Some(match kind? {
            FileKind::Pool => ("a pool", "pools"),
            FileKind::Plain => ("a plain list", "plain lists"),
            FileKind::Names => ("a pool of names", "pools of names"),
            _ => ("a list", "lists"),
        })
    };
    let which = match kinds.map(name) {
        [None, None] => return None,
        [Some(old), Some(new)] if old == new => format!("both are {}", old.1),
        [Some(old), Some(new)] => format!("old is {} and new {}", old.0, new.0),
        [Some(old), None] => format!("old is {}", old.0),
        [None, Some(new)] => format!("new is {}", new.0),
    };
    let of = if kinds.contains(&Some(FileKind::Names)) { "" } else { " of an index" };
    Some(format!("{which}{of}, not data; --bytes compares them as bytes"))
}

impl Found {
    /// Both digests, and then the verdict with what there is to say of it.
    fn lines(&self) -> Vec<String> {
        let verdict = self.verdict;
        let Some(pieces) = self.pieces else {
            return vec![self.last_line(verdict.to_string())];
        };
        let (comparison, (old, new)) = (pieces.comparison(), pieces.bytes());
        let last = match (verdict, pieces.first_difference()) {
            (Verdict::Different, Some(place)) if place == old => {
                format!("{verdict}: from byte {place}, where old ends")
            }
            (Verdict::Different, Some(place)) if place == new => {
                format!("{verdict}: from byte {place}, where new ends")
            }
            (Verdict::Different, place) => format!("{verdict}: from byte {}", place.unwrap_or(0)),
            _ => self.last_line(verdict.to_string()),
        };
        vec![
            format!("old: {old} bytes, crc32c {}", comparison.old),
            format!("new: {new} bytes, crc32c {}", comparison.new),
            last,
        ]
    }

    fn last_line(&self, verdict: String) -> String {
        self.why.as_ref().map_or(verdict.clone(), |why| format!("{verdict}: {why}"))
    }

    fn json(&self) -> String {
        let side = |bytes: u64, digest: Crc32c| {
            let object = Object::new().with("bytes", bytes);
            object.text("crc32c", &digest.to_string()).end()
        };
        let (old, new) = self.pieces.map_or((None, None), |pieces| {
            let (comparison, (old, new)) = (pieces.comparison(), pieces.bytes());
            (Some(side(old, comparison.old)), Some(side(new, comparison.new)))
        });
        let first = self.pieces.and_then(Pieces::first_difference).map(|place| place.to_string());
        Object::new()
            .text("verdict", &self.verdict.to_string())
            .with("why", json::or_null(self.why.as_deref().map(json::string)))
            .with("old", json::or_null(old))
            .with("new", json::or_null(new))
            .with("first_difference", json::or_null(first))
            .end()
    }
}
