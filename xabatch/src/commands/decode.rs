//! `decode`: records to text or JSON, in memory of a fixed size.

use super::{only_file, scripts};
use crate::args::Arguments;
use crate::failure::{malformed, usage, Failure};
use crate::files::{self, of_file};
use crate::source::Source;
use std::ffi::{OsStr, OsString};
use xabatch::decode::{command_at, Bad, Decoder, Item};
use xabatch::json::{self, Object};
use xabatch::kind::FileKind;
use xabatch::progress::Progress;
use xabatch::window::Window;
use xapool_host::{Answer, Tag, MOST_BATCH_BYTES, PROGRAM_BATCH_BYTES, SCRIPT_FILE};

pub fn decode(arguments: Arguments) -> Result<(), Failure> {
    let file = only_file(&arguments)?;
    let batch = arguments.value("--batch");
    if batch.is_some_and(|batch| batch == "-") && file == "-" {
        return Err(usage("the batch and the replies cannot both be standard input"));
    }
    files::output_is_open()?;
    let batch = batch.map(Batch::open).transpose()?;
    let mut decoding = Decoding::open(file, batch)?;
    if decoding.is_script()? {
        return decoding.write_script(&arguments);
    }
    let mut output = Output::of(arguments.has("--json"));
    output.begin();
    let whole = decoding.read_all(&mut output)?.and_then(|()| decoding.is_whole());
    let strict = arguments.has("--strict") && whole.is_ok();
    let outcome = if strict { decoding.is_done() } else { whole };
    output.end(&decoding.decoder, &outcome);
    output.write_out()?;
    if !strict && decoding.decoder.tally.not_done() > 0 {
        files::complain(&decoding.not_done_text());
    }
    outcome
}

/// The file that is read, how far, and the batch that it must answer.
struct Decoding {
    file: OsString,
    window: Window<Source>,
    progress: Progress,
    decoder: Decoder,
    batch: Option<Batch>,
}

impl Decoding {
    fn open(file: OsString, batch: Option<Batch>) -> Result<Decoding, Failure> {
        let source = Source::open(&file).map_err(|error| of_file(&file, error))?;
        let progress = Progress::as_text(source.length());
        let (window, decoder) = (Window::of(source), Decoder::default());
        Ok(Decoding { file, window, progress, decoder, batch })
    }

    fn is_script(&mut self) -> Result<bool, Failure> {
        let rest = self.window.rest().map_err(|error| of_file(&self.file, error))?;
        Ok(rest.starts_with(&SCRIPT_FILE))
    }

    /// A script is read whole: its digest is of all of it.
    fn write_script(&mut self, arguments: &Arguments) -> Result<(), Failure> {
        if self.batch.is_some() || arguments.has("--strict") {
            return Err(of_file(&self.file, "a script is no replies"));
        }
        let bytes = self.window.read_all().map_err(|error| of_file(&self.file, error))?;
        self.window.input().is_unchanged().map_err(|error| of_file(&self.file, error))?;
        self.progress = Progress::of(None);
        scripts::write_script(&self.file, &bytes, arguments.has("--json"))
    }

    /// Writes each record as it comes. The outer failure is of the output: nothing more is written then.
    fn read_all(&mut self, output: &mut Output) -> Result<Result<(), Failure>, Failure> {
        let read = loop {
            match self.next() {
                Ok(Some(item)) => output.take(&item)?,
                Ok(None) => break Ok(()),
                Err(failure) => break Err(failure),
            }
        };
        // The bar goes before anything is said.
        self.progress = Progress::of(None);
        Ok(read)
    }

    fn next(&mut self) -> Result<Option<Item>, Failure> {
        let file = &self.file;
        let rest = self.window.rest().map_err(|error| of_file(file, error))?;
        if rest.is_empty() {
            return Ok(None);
        }
        let wanted = [FileKind::Replies, FileKind::Batch, FileKind::List];
        let bad = |bad| bad_record(file, &bad, FileKind::guess(rest), &wanted);
        let (item, size) = self.decoder.take(rest).map_err(bad)?;
        self.window.pass(size);
        self.progress.add(size);
        if let (Item::Reply(reply), Some(batch)) = (&item, &mut self.batch) {
            batch.answered(reply.tag)?;
        }
        Ok(Some(item))
    }

    /// Whether what was read is all that was to be read.
    fn is_whole(&mut self) -> Result<(), Failure> {
        let unchanged = self.window.input().is_unchanged();
        unchanged.map_err(|error| of_file(&self.file, error))?;
        if let Some((answer, number)) = self.decoder.refused {
            return Err(self.refused(answer, number));
        }
        if self.batch.is_some() && self.decoder.listed > 0 {
            return Err(of_file(&self.file, "entries of a list are no replies"));
        }
        match &mut self.batch {
            Some(batch) => batch.is_answered(&self.file),
            None => Ok(()),
        }
    }

    /// Whether there are replies, and each is done.
    fn is_done(&self) -> Result<(), Failure> {
        match (self.decoder.tally.replies(), self.decoder.tally.not_done()) {
            (0, _) => Err(of_file(&self.file, "no reply: nothing was done")),
            (_, 0) => Ok(()),
            _ => Err(malformed(self.not_done_text())),
        }
    }

    fn not_done_text(&self) -> String {
        format!("{}: {}", files::name(&self.file), self.decoder.tally)
    }

    /// A refused call; of a bad batch, which of the four causes it was, as far as that can be told.
    fn refused(&mut self, answer: Answer, number: u16) -> Failure {
        let refused = |what: &str| of_file(&self.file, format!("the call was refused: {what}"));
        if answer != Answer::BadBatch {
            return refused(&answer.to_string());
        }
        if [PROGRAM_BATCH_BYTES, MOST_BATCH_BYTES].contains(&usize::from(number)) {
            return refused(&format!("the batch is too long, above {number} bytes"));
        }
        match self.batch.as_mut().map(Batch::read_all) {
            Some(Err(bad)) => bad,
            Some(Ok(())) => refused(&format!("byte {number} of another batch than this is bad")),
            None => {
                let what = "a record is cut, of unknown tag or of wrong length";
                refused(&format!("byte {number} of the batch: {what}; --batch says which"))
            }
        }
    }
}

/// The first record of a file of another kind is bad too; then its kind is told.
pub fn bad_record(file: &OsStr, bad: &Bad, kind: Option<FileKind>, wanted: &[FileKind]) -> Failure {
    match kind.filter(|kind| bad.place == 0 && !wanted.contains(kind)) {
        Some(kind) if wanted.len() == 1 => of_file(file, format!("no batch: it looks like {kind}")),
        Some(kind) => of_file(file, format!("no records: it looks like {kind}")),
        None => of_file(file, bad),
    }
}

/// The commands of a batch, one for each reply.
struct Batch {
    file: OsString,
    window: Window<Source>,
    place: u64,
    commands: u64,
    replies: u64,
    /// The first reply of another kind than its command: its number, command and reply.
    other: Option<(u64, Tag, Tag)>,
}

impl Batch {
    fn open(file: &OsStr) -> Result<Batch, Failure> {
        let source = Source::open(file).map_err(|error| of_file(file, error))?;
        let window = Window::of(source);
        Ok(Batch { file: file.into(), window, place: 0, commands: 0, replies: 0, other: None })
    }

    fn next(&mut self) -> Result<Option<Tag>, Failure> {
        let file = &self.file;
        let rest = self.window.rest().map_err(|error| of_file(file, error))?;
        if rest.is_empty() {
            return Ok(None);
        }
        let place = self.place;
        let wanted = [FileKind::Batch];
        let bad = |cause| bad_record(file, &Bad { place, cause }, FileKind::guess(rest), &wanted);
        let (command, size) = command_at(rest).map_err(bad)?;
        self.place += size as u64;
        self.window.pass(size);
        self.commands += 1;
        Ok(Some(command.tag()))
    }

    /// A reply of this kind came.
    fn answered(&mut self, reply: Tag) -> Result<(), Failure> {
        self.replies += 1;
        let command = self.next()?;
        let other = command.filter(|command| *command != reply);
        self.other = self.other.or(other.map(|command| (self.replies, command, reply)));
        Ok(())
    }

    fn read_all(&mut self) -> Result<(), Failure> {
        while self.next()?.is_some() {}
        self.window.input().is_unchanged().map_err(|error| of_file(&self.file, error))
    }

    /// No more is to come: one reply for each command, of its kind.
    fn is_answered(&mut self, file: &OsStr) -> Result<(), Failure> {
        self.read_all()?;
        let (is, of) = (self.replies, self.commands);
        if is != of {
            return Err(of_file(file, format!("{is} replies to {of} commands: it was cut")));
        }
        match self.other {
            None => Ok(()),
            Some((which, command, reply)) => {
                let what = format!("reply {which} is to {reply}, the command is {command}");
                Err(of_file(file, what))
            }
        }
    }
}

/// Lines, or one JSON object, gathered and written in parts.
struct Output {
    json: bool,
    is_first: bool,
    text: String,
}

impl Output {
    const PART: usize = 1 << 16;

    fn of(json: bool) -> Output {
        Output { json, is_first: true, text: String::new() }
    }

    fn begin(&mut self) {
        if self.json {
            self.text.push_str("{\"records\":[");
        }
    }

    fn take(&mut self, item: &Item) -> Result<(), Failure> {
        if self.json {
            self.text.push_str(if self.is_first { "\n" } else { ",\n" });
            self.text.push_str(&item.json());
        } else {
            self.text.push_str(&format!("{item}\n"));
        }
        self.is_first = false;
        if self.text.len() < Output::PART {
            return Ok(());
        }
        self.write_out()
    }

    /// What there is to say of all of them.
    fn end(&mut self, decoder: &Decoder, outcome: &Result<(), Failure>) {
        if self.json {
            let fault = outcome.as_ref().err().map(|failure| json::string(&failure.message));
            let last = Object::new()
                .with("replies", decoder.tally.replies())
                .with("not_done", decoder.tally.not_done_json())
                .with("fault", json::or_null(fault))
                .end();
            self.text.push_str(&format!("],{}\n", &last[1..]));
        }
    }

    fn write_out(&mut self) -> Result<(), Failure> {
        let text = std::mem::take(&mut self.text);
        files::write(text.as_bytes())
    }
}
